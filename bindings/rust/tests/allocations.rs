//! No call allocates, but for the user data of a client that connects, which renetcode's type wants boxed, and lists that are vectors.

mod plant;

use std::alloc::{GlobalAlloc, Layout, System};
use std::cell::Cell;
use std::time::Duration;

use netcode::{NetcodeServer, ServerResult};
use plant::{ours, Pump, Setting};

thread_local! {
    static COUNT: Cell<usize> = const { Cell::new(0) };
}

struct Counting;

// SAFETY: all work is the system's own.
unsafe impl GlobalAlloc for Counting {
    unsafe fn alloc(&self, layout: Layout) -> *mut u8 {
        COUNT.set(COUNT.get() + 1);
        unsafe { System.alloc(layout) }
    }

    unsafe fn dealloc(&self, place: *mut u8, layout: Layout) {
        unsafe { System.dealloc(place, layout) }
    }
}

#[global_allocator]
static ALLOCATOR: Counting = Counting;

fn count<T>(call: impl FnOnce() -> T) -> usize {
    let before = COUNT.get();
    let result = call();
    let count = COUNT.get() - before;
    drop(result);
    count
}

/// The answer's packet goes to the pump.
fn shakes_hands(server: &mut NetcodeServer, pump: &mut Pump) -> usize {
    let mut packet = pump.asks();
    let mut answer = Vec::with_capacity(1400);
    let count = count(|| match server.process_packet(pump.addr, &mut packet) {
        ServerResult::PacketToSend { payload, .. } => answer.extend_from_slice(payload),
        ServerResult::ClientConnected { payload, .. } => answer.extend_from_slice(payload),
        other => panic!("{other:?}"),
    });
    pump.reads(answer);
    count
}

#[test]
fn only_where_a_type_wants_it() {
    let mut server = NetcodeServer::new(ours::config(&Setting::of(3)));
    let mut pump = Pump::new(1);
    assert_eq!(shakes_hands(&mut server, &mut pump), 0, "a request");
    assert_eq!(shakes_hands(&mut server, &mut pump), 1, "a connection");

    let mut packet = pump.reports(b"12.5");
    assert_eq!(
        count(|| drop(server.process_packet(pump.addr, &mut packet))),
        0
    );
    assert_eq!(
        count(|| drop(server.process_packet(pump.addr, &mut packet))),
        0
    );
    assert_eq!(
        count(|| server.generate_payload_packet(1, b"dose").is_ok()),
        0
    );
    assert_eq!(count(|| server.update(Duration::from_secs(1))), 0);
    assert_eq!(count(|| drop(server.update_client(1))), 0);
    assert_eq!(count(|| server.set_max_clients(7)), 0);
    assert_eq!(count(|| server.clients_id_iter().sum::<u64>()), 0);
    assert_eq!(count(|| server.user_data(1)), 0);
    assert_eq!(count(|| server.client_addr(1)), 0);
    assert_eq!(count(|| server.time_since_last_received_packet(1)), 0);
    assert_eq!(count(|| server.connected_clients()), 0);
    assert_eq!(count(|| server.clients_id()), 1);
    assert_eq!(count(|| server.clients_slot()), 1);
    assert_eq!(count(|| drop(server.disconnect(1))), 0);
    assert_eq!(server.connected_clients(), 0);
}

//! The same names, types, lifetimes and derives in both crates: one body, compiled against each.

use std::fmt::{Debug, Display};
use std::net::SocketAddr;
use std::time::Duration;

/// A vector of the ids, which both crates give as an iterator without a name.
fn collected(ids: impl Iterator<Item = u64>) -> Vec<u64> {
    ids.collect()
}

/// Compiles only where a server goes to another thread with any cipher that does.
fn goes_to_another_thread<C: netcode::Cipher + Send>(
    server: netcode::NetcodeServer<C>,
) -> impl Send {
    server
}

macro_rules! compiles_against {
    ($test:ident, $library:ident) => {
        #[test]
        fn $test() {
            use $library::{
                generate_random_bytes, NetcodeError, NetcodeServer, ServerAuthentication,
                ServerConfig, ServerResult, NETCODE_KEY_BYTES, NETCODE_MAX_PACKET_BYTES,
                NETCODE_MAX_PAYLOAD_BYTES, NETCODE_USER_DATA_BYTES,
            };

            type Sent<'s> = Result<(SocketAddr, &'s mut [u8]), NetcodeError>;
            type UserData = [u8; NETCODE_USER_DATA_BYTES];
            type Takes<R> = fn(&NetcodeServer) -> R;
            type TakesId<R> = fn(&NetcodeServer, u64) -> R;

            let _: fn(ServerConfig) -> NetcodeServer = NetcodeServer::new;
            let _: for<'a, 's> fn(
                &'s mut NetcodeServer,
                SocketAddr,
                &'a mut [u8],
            ) -> ServerResult<'a, 's> = NetcodeServer::process_packet;
            let _: for<'s, 'p> fn(&'s mut NetcodeServer, u64, &'p [u8]) -> Sent<'s> =
                NetcodeServer::generate_payload_packet;
            let _: for<'s> fn(&'s mut NetcodeServer, u64) -> ServerResult<'s, 's> =
                NetcodeServer::update_client;
            let _: for<'s> fn(&'s mut NetcodeServer, u64) -> ServerResult<'s, 's> =
                NetcodeServer::disconnect;
            let _: fn(&mut NetcodeServer, Duration) = NetcodeServer::update;
            let _: fn(&mut NetcodeServer, usize) = NetcodeServer::set_max_clients;
            let _: Takes<usize> = NetcodeServer::max_clients;
            let _: Takes<usize> = NetcodeServer::connected_clients;
            let _: Takes<Duration> = NetcodeServer::current_time;
            let _: Takes<Vec<SocketAddr>> = NetcodeServer::addresses;
            let _: Takes<Vec<usize>> = NetcodeServer::clients_slot;
            let _: Takes<Vec<u64>> = NetcodeServer::clients_id;
            let _: Takes<Vec<u64>> = |server| collected(server.clients_id_iter());
            let _: TakesId<bool> = NetcodeServer::is_client_connected;
            let _: TakesId<Option<UserData>> = NetcodeServer::user_data;
            let _: TakesId<Option<SocketAddr>> = NetcodeServer::client_addr;
            let _: TakesId<Option<Duration>> = NetcodeServer::time_since_last_received_packet;
            let _: fn() -> [u8; NETCODE_KEY_BYTES] = generate_random_bytes::<NETCODE_KEY_BYTES>;

            fn server_derives<T: Debug + Send + Sync + Unpin>() {}
            fn result_derives<T: Debug + PartialEq + Eq + Send>() {}
            fn error_derives<T: Debug + Display + std::error::Error + 'static>() {}
            server_derives::<NetcodeServer>();
            result_derives::<ServerResult<'_, '_>>();
            error_derives::<NetcodeError>();

            let private_key = generate_random_bytes();
            let server = NetcodeServer::new(ServerConfig {
                current_time: Duration::from_secs(1),
                max_clients: 64,
                protocol_id: 7,
                public_addresses: vec!["127.0.0.1:5000".parse().unwrap()],
                authentication: ServerAuthentication::Secure { private_key },
            });
            assert_eq!(server.max_clients(), 64);
            assert_eq!(
                [NETCODE_MAX_PACKET_BYTES, NETCODE_MAX_PAYLOAD_BYTES],
                [1400, 1300]
            );
            assert!(format!("{server:?}").starts_with("NetcodeServer"));
        }
    };
}

compiles_against!(renetcode, oracle);
compiles_against!(this_crate, netcode);

#[test]
fn another_thread() {
    let config = netcode::ServerConfig {
        current_time: Duration::ZERO,
        max_clients: 3,
        protocol_id: 7,
        public_addresses: vec![],
        authentication: netcode::ServerAuthentication::Unsecure,
    };
    drop(goes_to_another_thread(netcode::NetcodeServer::new(config)));
}

fn never() -> u8 {
    panic!("an argument was evaluated")
}

#[test]
fn nothing_is_evaluated() {
    log::error!("{}", never());
    log::warn!("{}", never());
    log::info!("{:?} {}", never(), never());
    log::debug!("{}", never(),);
    log::trace!("{}", never());
}

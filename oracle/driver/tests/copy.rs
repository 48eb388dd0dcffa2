//! What is compiled: the driver in docs with the three repairs of request 2026-02, and
//! nothing else. The repairs are said here once more, so that the patch cannot alter
//! anything besides without being noticed.

/// The step that starts a waiting commit's first write ends there.
const WAITING_COMMIT: (&str, &str) = (
    "                InternalState::CONFIG_SHORT0_SET,
            );
            // Request 2026-02: the step ends here. CONFIG_SHORT0_SET's case, which
            // writes SHORT_ADDR_1, is taken when this write completes.
            return;
        }
",
    "                InternalState::CONFIG_SHORT0_SET,
            );
        }
",
);

/// Startup writes the PAN's low byte to PAN_ID_0 and the high byte to PAN_ID_1.
const STARTUP_PAN: (&str, &str) = (
    "            InternalState::START_XAH0_SET => {
                // Request 2026-02: the low byte goes to PAN_ID_0, as in a commit.
                self.state_transition_write(
                    RF233Register::PAN_ID_0,
                    (self.pan.get() & 0xff) as u8,
                    InternalState::START_PANID0_SET,
                );
            }
            InternalState::START_PANID0_SET => {
                self.state_transition_write(
                    RF233Register::PAN_ID_1,
                    (self.pan.get() >> 8) as u8,
                    InternalState::START_PANID1_SET,
",
    "            InternalState::START_XAH0_SET => {
                self.state_transition_write(
                    RF233Register::PAN_ID_0,
                    (self.pan.get() >> 8) as u8,
                    InternalState::START_PANID0_SET,
                );
            }
            InternalState::START_PANID0_SET => {
                self.state_transition_write(
                    RF233Register::PAN_ID_1,
                    (self.pan.get() & 0xff) as u8,
                    InternalState::START_PANID1_SET,
",
);

/// A commit called in READY during a transfer only waits.
const BUSY_CALL: (&str, &str) = (
    "            // Request 2026-02: during a transfer the commit only waits; it starts
            // when a completion leaves the driver in READY.
            if state == InternalState::READY && !self.spi_busy.get() {
                // Start configuration commit
",
    "            if state == InternalState::READY {
                // Start configuration commit
",
);

/// Each repair: its new text, and the old one in whose place it stands. The feature
/// `unpatched` builds the driver without them.
const REPAIRS: &[(&str, &str)] = match cfg!(feature = "unpatched") {
    true => &[],
    false => &[WAITING_COMMIT, STARTUP_PAN, BUSY_CALL],
};

#[test]
fn the_driver_that_is_built_is_the_driver_in_docs_with_three_repairs() {
    let docs = concat!(
        env!("CARGO_MANIFEST_DIR"),
        "/../../docs/src/capsules/extra/src/rf233.rs"
    );
    let docs = std::fs::read_to_string(docs).expect("the Rust in docs");
    let mut copy = oracle::COPY.to_string();
    for (new, old) in REPAIRS {
        assert_eq!(copy.matches(new).count(), 1, "{new}");
        copy = copy.replace(new, old);
    }
    // Without the repairs it is the same to the byte; one line more opens it to the probe.
    let opening = copy.strip_prefix(docs.as_str()).expect("the same text");
    assert_eq!(opening.lines().count(), 1);
    assert!(opening.starts_with("#[path = "), "{opening}");
}

//! Names of commands, for log and metrics.

/// The name of a command, by its queue and its opcode.
pub fn command_name(qid: u16, opcode: u8) -> &'static str {
    match (qid, opcode) {
        (0, 0x00) => "delete_submission_queue",
        (0, 0x01) => "create_submission_queue",
        (0, 0x02) => "get_log_page",
        (0, 0x04) => "delete_completion_queue",
        (0, 0x05) => "create_completion_queue",
        (0, 0x06) => "identify",
        (0, 0x08) => "abort",
        (0, 0x09) => "set_features",
        (0, 0x0a) => "get_features",
        (0, 0x0c) => "asynchronous_event_request",
        (0, 0x15) => "namespace_attachment",
        (0, 0x18) => "keep_alive",
        (0, _) => "unknown",
        (_, 0x00) => "flush",
        (_, 0x01) => "write",
        (_, 0x02) => "read",
        (_, 0x05) => "compare",
        (_, 0x08) => "write_zeroes",
        (_, 0x09) => "dataset_management",
        (_, 0x0d) => "reservation_register",
        (_, 0x0e) => "reservation_report",
        (_, 0x11) => "reservation_acquire",
        (_, 0x15) => "reservation_release",
        _ => "unknown",
    }
}

/// The name of a command of Fabrics, by its type.
pub fn fabrics_name(kind: u8) -> &'static str {
    match kind {
        0x00 => "property_set",
        0x01 => "connect",
        0x04 => "property_get",
        0x05 => "authentication_send",
        0x06 => "authentication_receive",
        0x08 => "disconnect",
        _ => "unknown",
    }
}

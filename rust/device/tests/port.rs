//! A device as a port: a client that knows only `Read` and `Write`.

mod common;

use common::{awake, blank, packet, range, write_data, WAKE};
use indraveck::{Port, Refusal, Stage};
use std::io::{self, ErrorKind, Read, Write};

/// Wakes up what is behind a port.
fn wake(port: &mut (impl Read + Write)) -> io::Result<()> {
    let mut reply = [0; 1];
    port.write_all(&WAKE[..2])?;
    port.read_exact(&mut reply)?;
    assert_eq!(reply, [0x00]);
    port.write_all(&WAKE[2..])?;
    port.read_exact(&mut reply)?;
    assert_eq!(reply, [0xC3]);
    Ok(())
}

/// Sends a packet, and reads the reply by its own length.
fn ask(port: &mut (impl Read + Write), request: &[u8]) -> io::Result<Vec<u8>> {
    port.write_all(request)?;
    port.flush()?;
    let mut reply = vec![0; 3];
    port.read_exact(&mut reply)?;
    let length = usize::from(u16::from_be_bytes([reply[1], reply[2]]));
    reply.resize(length + 5, 0);
    port.read_exact(&mut reply[3..])?;
    Ok(reply)
}

#[test]
fn a_client_of_ports_flashes_and_reads_back() {
    let mut port = Port::new(blank());
    wake(&mut port).unwrap();
    let ok = packet(0x81, &[0x13, 0x00]);
    let write = range(0x13, 0x2000, 0x207F);
    assert_eq!(ask(&mut port, &write).unwrap(), ok);
    assert_eq!(ask(&mut port, &write_data(3)).unwrap(), ok);
    let read = ask(&mut port, &range(0x15, 0x1800, 0x207F)).unwrap();
    assert_eq!(read.len(), 1030);
    let next = ask(&mut port, &packet(0x81, &[0x15, 0x00])).unwrap();
    assert_eq!(next.len(), 1030);
    let last = ask(&mut port, &packet(0x81, &[0x15, 0x00])).unwrap();
    assert_eq!(last[3], 0x15);
    assert_eq!(last[4..132], write_data(3)[4..132]);
    assert_eq!(port.waiting(), 0);
    assert_eq!(port.into_inner().image()[0x2000], 3);
}

#[test]
fn a_read_with_nothing_waiting_would_block() {
    let mut port = Port::new(blank());
    let mut bytes = [0x5A; 2];
    let error = port.read(&mut bytes).unwrap_err();
    assert_eq!(error.kind(), ErrorKind::WouldBlock);
    assert_eq!(port.read(&mut []).unwrap(), 0);
    let unanswered = ask(&mut port, &packet(0x01, &[0x00])).unwrap_err();
    assert_eq!(unanswered.kind(), ErrorKind::WouldBlock);
    assert_eq!(bytes, [0x5A; 2]);
    wake(&mut port).unwrap();
}

#[test]
fn replies_wait_in_order_until_they_are_read() {
    let mut port = Port::new(awake());
    let requests = [packet(0x01, &[0x00]), packet(0x01, &[0x3A])].concat();
    assert_eq!(port.write(&requests).unwrap(), requests.len());
    let expected = awake().feed_all(&requests);
    assert_eq!(port.waiting(), expected.len());
    let mut replies = Vec::new();
    let mut piece = [0; 4];
    while port.waiting() > 0 {
        let count = port.read(&mut piece).unwrap();
        assert!(count > 0);
        replies.extend_from_slice(&piece[..count]);
    }
    assert_eq!(replies, expected);
    assert_eq!(port.write(&[]).unwrap(), 0);
}

#[test]
fn a_reset_through_the_port_leaves_what_waits() {
    let mut port = Port::new(blank());
    port.write_all(&WAKE).unwrap();
    port.device_mut().reset();
    assert_eq!(
        port.device().state().stage,
        Stage::Setting { low_pulses: 0 }
    );
    let mut replies = [0; 2];
    port.read_exact(&mut replies).unwrap();
    assert_eq!(replies, [0x00, 0xC3]);
}

#[test]
fn a_write_that_is_refused_is_an_error_with_its_reason() {
    let mut port = Port::new(awake());
    port.device_mut().image_mut().pop();
    let error = port.write(&packet(0x01, &[0x00])).unwrap_err();
    assert_eq!(error.kind(), ErrorKind::InvalidInput);
    let reason = error.get_ref().unwrap().downcast_ref::<Refusal>();
    assert_eq!(reason, Some(&Refusal::WrongImageLength));
    assert_eq!(port.waiting(), 0);
}

#[test]
fn a_port_is_shown_in_short() {
    let mut port = Port::new(awake());
    port.write_all(&range(0x15, 0, 0xFFFF)).unwrap();
    let shown = format!("{:?}", port);
    assert!(shown.contains("waiting: 1030"), "{}", shown);
    assert!(shown.len() < 300, "{}", shown);
}

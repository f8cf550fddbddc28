//! A device as something to write to and read from.

use crate::device::Device;
use std::collections::VecDeque;
use std::fmt;
use std::io::{self, Read, Write};

/// A device behind [`Write`] and [`Read`], as a serial port would be: what is written reaches the device, what it sends back can be read.
///
/// `write` feeds all that it is given, and the replies wait, however many, until they are read. The device answers at once: when a write
/// has returned, all that there will be to read is there.
///
/// `read` takes what waits. If nothing waits it fails with [`WouldBlock`](io::ErrorKind::WouldBlock), as a port that is open, with
/// nothing in it, and does not make its reader wait. It never gives `Ok(0)`, which would mean that the port was closed. A client
/// that reads a reply with `read_exact` gets the same error if the device did not answer.
///
/// ```
/// use indraveck::{Device, Port, Profile};
/// use std::io::{ErrorKind, Read, Write};
///
/// let profile = Profile::bench();
/// let device = Device::start(&profile, vec![0xFF; profile.total() as usize]).unwrap();
/// let mut port = Port::new(device);
/// port.write_all(&[0x00, 0x00, 0x55]).unwrap();
/// let mut reply = [0; 2];
/// port.read_exact(&mut reply).unwrap();
/// assert_eq!(reply, [0x00, 0xC3]);
/// assert_eq!(port.read(&mut reply).unwrap_err().kind(), ErrorKind::WouldBlock);
/// ```
#[derive(Clone)]
pub struct Port<I> {
    device: Device<I>,
    waiting: VecDeque<u8>,
}

impl<I> Port<I> {
    /// A port with nothing to read yet.
    pub fn new(device: Device<I>) -> Port<I> {
        Port {
            device,
            waiting: VecDeque::new(),
        }
    }

    /// How many reply bytes wait to be read.
    pub fn waiting(&self) -> usize {
        self.waiting.len()
    }

    /// The device, to look at.
    pub fn device(&self) -> &Device<I> {
        &self.device
    }

    /// The device, to reset it or to change its flash. Replies that wait go on waiting; those to bytes fed here do not come to the port.
    pub fn device_mut(&mut self) -> &mut Device<I> {
        &mut self.device
    }

    /// The device back; replies that wait are lost.
    pub fn into_inner(self) -> Device<I> {
        self.device
    }
}

/// Short: the device, and how many bytes wait.
impl<I: AsRef<[u8]>> fmt::Debug for Port<I> {
    fn fmt(&self, f: &mut fmt::Formatter) -> fmt::Result {
        f.debug_struct("Port")
            .field("device", &self.device)
            .field("waiting", &self.waiting.len())
            .finish()
    }
}

impl<I: AsRef<[u8]> + AsMut<[u8]>> Write for Port<I> {
    /// Feeds all of the bytes. Fails, as invalid input and with the [`Refusal`](crate::Refusal) inside, only if the image has another length
    /// than at the start.
    fn write(&mut self, bytes: &[u8]) -> io::Result<usize> {
        let mut fed = 0;
        while fed < bytes.len() {
            match self.device.try_feed_once(&bytes[fed..]) {
                Ok((consumed, reply)) => {
                    self.waiting.extend(reply);
                    fed += consumed;
                }
                // the next write tells it: an error means that nothing was written
                Err(_) if fed > 0 => break,
                Err(refusal) => return Err(io::Error::new(io::ErrorKind::InvalidInput, refusal)),
            }
        }
        Ok(fed)
    }

    /// Does nothing: what was written has reached the device.
    fn flush(&mut self) -> io::Result<()> {
        Ok(())
    }
}

impl<I> Read for Port<I> {
    /// Takes waiting reply bytes, up to the buffer's length; `WouldBlock` if none wait.
    fn read(&mut self, bytes: &mut [u8]) -> io::Result<usize> {
        if self.waiting.is_empty() && !bytes.is_empty() {
            return Err(io::ErrorKind::WouldBlock.into());
        }
        self.waiting.read(bytes)
    }
}

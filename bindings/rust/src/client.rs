use crate::bell::{Bell, RingsAtLast};
use crate::doing::Doer;
use crate::error::{not_answered, Refused, SendError};
use crate::ffi::{self, Handle};
use crate::tokens::Tokens;
use std::sync::Arc;
use std::time::{Duration, Instant};

/// The sender's side of one server. It may go to another thread, and sends while the house runs.
///
/// A job has a token: a value of any type, which the house shows with each unit, and hands out with the last.
///
/// A client that is dropped has ended: the house takes the jobs that it sent, and then closes its server. So a sender that
/// returns early, or panics, keeps no house waiting.
///
/// ```
/// use cbs::{Ended, Mode, Plan};
///
/// let mut plan = Plan::new();
/// plan.admit(2, 5, Mode::Soft)?;
/// let (mut house, mut clients) = plan.open(4, 4)?;
/// clients[0].send("wash", 2)?;
/// drop(clients);
/// let mut units = 0;
/// assert_eq!(house.run_until_closed(|unit| units += unit.token.len())?, Ended::Closed);
/// assert_eq!(units, 8);
/// # Ok::<(), Box<dyn std::error::Error>>(())
/// ```
#[derive(Debug)]
pub struct Client<T = u64> {
    // The house wakes after the end was sent: fields are dropped in this order.
    handle: Handle,
    tokens: Arc<Tokens<T>>,
    bell: RingsAtLast,
    doer: Arc<Doer>,
    server: usize,
    sent: u64,
}

impl<T> Client<T> {
    pub(crate) fn new(
        handle: Handle,
        tokens: Arc<Tokens<T>>,
        bell: Arc<Bell>,
        doer: Arc<Doer>,
        server: usize,
    ) -> Client<T> {
        Client {
            handle,
            tokens,
            bell: RingsAtLast(bell),
            doer,
            server,
            sent: 0,
        }
    }

    /// Returns the number of its server, from 0.
    #[must_use]
    pub fn server(&self) -> usize {
        self.server
    }

    /// Sends a job of 1 to 1,000,000 units, and returns its number among those of this client, from 0. It never waits, and wakes
    /// a house that sleeps. A unit may call it. Jobs are taken, run and finished in the order of their sends.
    ///
    /// # Errors
    ///
    /// [`Refused`]: nothing was sent then, and the token is handed back. [`SendError::RingFull`] passes when the house has
    /// polled; [`SendError::HouseGone`] does not. This call is never refused by [`SendError::InUnit`].
    ///
    /// ```
    /// use cbs::{Mode, Plan, SendError};
    ///
    /// let mut plan = Plan::new();
    /// plan.admit(2, 5, Mode::Soft)?;
    /// let (house, mut clients) = plan.open(4, 1)?;
    /// assert_eq!(clients[0].send(String::from("wash"), 1)?, 0);
    /// let refused = clients[0].send(String::from("dry"), 1).unwrap_err();
    /// assert_eq!((refused.error, refused.token.as_str()), (SendError::RingFull, "dry"));
    /// # drop(house);
    /// # Ok::<(), Box<dyn std::error::Error>>(())
    /// ```
    pub fn send(&mut self, token: T, units: u32) -> Result<u64, Refused<T>> {
        let number = self.sent;
        self.tokens.put(number, token);
        match ffi::send(&mut self.handle, number, units) {
            Ok(_number) => {
                self.sent += 1;
                let lost = self.tokens.sent(number);
                self.bell.0.ring();
                lost.map_or(Ok(number), |token| {
                    let error = SendError::HouseGone;
                    Err(Refused { error, token })
                })
            }
            Err(status) => {
                let token = self.tokens.take(number);
                Err(Refused {
                    error: SendError::of(status),
                    token: token.expect("the house takes no token of a job that was not sent"),
                })
            }
        }
    }

    /// Sends a job, as [`send`](Client::send), and waits while the ring is full. Returns the number of the job.
    ///
    /// In a unit of the same house the send is refused at once, also if the ring has room. The serving thread would wait for
    /// itself. Call [`send`](Client::send) there, which never waits. In a unit of another house the send waits.
    ///
    /// # Errors
    ///
    /// [`Refused`], as of [`send`](Client::send), but never by [`SendError::RingFull`]. Also by [`SendError::InUnit`], in a
    /// unit of the same house. Nothing was sent then, and the token is handed back.
    ///
    /// ```
    /// use cbs::{Mode, Plan};
    /// use std::thread;
    ///
    /// let mut plan = Plan::new();
    /// plan.admit(2, 5, Mode::Soft)?;
    /// let (mut house, mut clients) = plan.open(1, 1)?;
    /// let mut client = clients.remove(0);
    /// let sender = thread::spawn(move || (0..100).try_for_each(|number| client.blocking_send(number, 1).map(drop)));
    /// house.run_until_closed(|_unit| {})?;
    /// sender.join().unwrap()?;
    /// # Ok::<(), Box<dyn std::error::Error>>(())
    /// ```
    pub fn blocking_send(&mut self, token: T, units: u32) -> Result<u64, Refused<T>> {
        self.send_until(token, units, None)
    }

    /// Sends a job, as [`blocking_send`](Client::blocking_send), but waits no longer than `most`. Returns the number of the job.
    ///
    /// If `most` is zero the send does not wait. In a unit of the same house the send is refused at once, whatever `most` is.
    ///
    /// # Errors
    ///
    /// [`Refused`], as of [`send`](Client::send): by [`SendError::RingFull`] if there was no room in that time. Also by
    /// [`SendError::InUnit`], in a unit of the same house. Nothing was sent then, and the token is handed back.
    ///
    /// ```
    /// use cbs::{Mode, Plan, SendError};
    /// use std::time::Duration;
    ///
    /// let mut plan = Plan::new();
    /// plan.admit(2, 5, Mode::Soft)?;
    /// let (house, mut clients) = plan.open(4, 1)?;
    /// let most = Duration::from_millis(1);
    /// assert_eq!(clients[0].send_timeout("wash", 1, most)?, 0);
    /// let refused = clients[0].send_timeout("dry", 1, most).unwrap_err(); // nobody serves
    /// assert_eq!((refused.error, refused.token), (SendError::RingFull, "dry"));
    /// # drop(house);
    /// # Ok::<(), Box<dyn std::error::Error>>(())
    /// ```
    pub fn send_timeout(
        &mut self,
        token: T,
        units: u32,
        most: Duration,
    ) -> Result<u64, Refused<T>> {
        // A time that no clock will show is no limit.
        self.send_until(token, units, Instant::now().checked_add(most))
    }

    /// Sends a job, and waits while the ring is full, until that time at most.
    fn send_until(
        &mut self,
        mut token: T,
        units: u32,
        until: Option<Instant>,
    ) -> Result<u64, Refused<T>> {
        if self.doer.is_me() {
            let error = SendError::InUnit;
            return Err(Refused { error, token });
        }
        loop {
            for listens in [false, true] {
                if listens {
                    self.tokens.room.listen();
                }
                match self.send(token, units) {
                    Err(refused) if refused.error == SendError::RingFull => token = refused.token,
                    sent => {
                        self.tokens.room.leave();
                        return sent;
                    }
                }
            }
            let left = until.map(|until| until.saturating_duration_since(Instant::now()));
            if left == Some(Duration::ZERO) {
                self.tokens.room.leave();
                let error = SendError::RingFull;
                return Err(Refused { error, token });
            }
            self.tokens.room.wait(left);
        }
    }

    /// Sends the end, after all jobs: nothing more can be sent, and the server closes when the house takes the end. Dropping
    /// the client does the same, and finds a place also if the ring is full.
    ///
    /// # Errors
    ///
    /// [`SendError::RingFull`]; [`SendError::Ended`] if it was sent before; [`SendError::HouseGone`].
    pub fn end(&mut self) -> Result<(), SendError> {
        ffi::end(&mut self.handle).map_err(SendError::of)?;
        self.bell.0.ring();
        Ok(())
    }

    /// Returns how many messages of this client stand in its ring, not taken yet. While the house polls there may be fewer
    /// by now.
    #[must_use]
    pub fn waiting(&self) -> usize {
        let waiting = ffi::waiting(&self.handle).unwrap_or_else(|status| not_answered(status));
        waiting as usize // at most 1025
    }
}

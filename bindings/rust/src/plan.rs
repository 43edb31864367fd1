use crate::bell::Bell;
use crate::client::Client;
use crate::doing::Doer;
use crate::error::{not_answered, OpenError, PlanError};
use crate::ffi::{self, Server};
use crate::house::House;
use crate::tokens::Tokens;
use std::sync::Arc;

/// What a server does after its budget is used up.
#[derive(Clone, Copy, Debug, PartialEq, Eq, Hash)]
pub enum Mode {
    /// It goes on at once, at a deadline one period later, after everybody whose deadline is earlier. It may use idle time.
    Soft,
    /// It waits until its deadline, though the thread idles.
    Throttled,
}

/// Servers that fit together: the sum of budget / period is at most 1, exactly.
#[derive(Clone, Debug, Default, PartialEq, Eq)]
pub struct Plan {
    servers: Vec<Server>,
}

impl Plan {
    /// A plan with no server.
    #[must_use]
    pub fn new() -> Plan {
        Plan::default()
    }

    /// Admits a server with a budget of `budget` ticks in every `period` ticks, and returns its number, from 0.
    ///
    /// # Errors
    ///
    /// Refuses exactly what does not fit, by the first reason of [`PlanError`]; the plan is then as it was.
    ///
    /// ```
    /// use cbs::{Mode, Plan, PlanError};
    ///
    /// let mut plan = Plan::new();
    /// assert_eq!(plan.admit(2, 5, Mode::Soft), Ok(0));
    /// assert_eq!(plan.admit(4, 5, Mode::Soft), Err(PlanError::OverBound));
    /// assert_eq!(plan.greatest_budget(5), 3);
    /// assert_eq!(plan.admit(3, 5, Mode::Throttled), Ok(1));
    /// ```
    pub fn admit(&mut self, budget: u64, period: u64, mode: Mode) -> Result<usize, PlanError> {
        let number = self.servers.len();
        let mode = match mode {
            Mode::Soft => 0,
            Mode::Throttled => 1,
        };
        self.servers.push(Server {
            budget,
            period,
            mode,
        });
        match ffi::admit(&self.servers) {
            Ok(()) => Ok(number),
            Err(status) => {
                self.servers.pop();
                Err(PlanError::of(status))
            }
        }
    }

    /// Returns the greatest budget with which a server of this period would be admitted now; 0 if none would.
    #[must_use]
    pub fn greatest_budget(&self, period: u64) -> u64 {
        ffi::greatest_budget(&self.servers, period).unwrap_or_else(|status| not_answered(status))
    }

    /// Returns how many servers it has, at most 64.
    #[must_use]
    pub fn len(&self) -> usize {
        self.servers.len()
    }

    /// Returns whether it has none.
    #[must_use]
    pub fn is_empty(&self) -> bool {
        self.servers.is_empty()
    }

    /// Opens a house with these servers, and a client for each, in their order. A server takes at most `backlog` jobs that are
    /// not finished (1 to 4096); a client's ring has places for `ring` messages (1 to 1024). The type of the tokens is that of
    /// what is sent.
    ///
    /// # Errors
    ///
    /// [`OpenError`]: `backlog` or `ring` is out of range, or there is not the memory.
    pub fn open<T>(
        &self,
        backlog: usize,
        ring: usize,
    ) -> Result<(House<T>, Vec<Client<T>>), OpenError> {
        let opened = ffi::open(&self.servers, backlog as u64, ring as u64);
        let (house, handles) = opened.map_err(OpenError::of)?;
        let bell = Arc::new(Bell::default());
        let doer = Arc::new(Doer::default());
        let mut tokens = Vec::with_capacity(handles.len());
        let mut clients = Vec::with_capacity(handles.len());
        for (server, handle) in handles.into_iter().enumerate() {
            let shared = Arc::new(Tokens::new(backlog + ring));
            tokens.push(Arc::clone(&shared));
            let (bell, doer) = (Arc::clone(&bell), Arc::clone(&doer));
            clients.push(Client::new(handle, shared, bell, doer, server));
        }
        let rates = Arc::from(self.servers.as_slice());
        let house = House::new(house, tokens, bell, doer, rates, backlog);
        Ok((house, clients))
    }
}

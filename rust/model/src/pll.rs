//! The PLL's state and its lock and unlock runs: tick step 3.

/// "Lock run 16 gives Locked."
pub const LOCK_TICKS: u8 = 16;
/// "Unlock run 782 (100 s)" sets the lock alarm.
pub const UNLOCK_TICKS: u16 = 782;

/// The states with their numbers in register 0x48.
#[derive(Clone, Copy, Debug, PartialEq, Eq)]
pub enum State {
    FreeRun = 0,
    Holdover = 1,
    PreLocked = 2,
    Locked = 3,
    LossOfLock = 4,
    PreLocked2 = 5,
}

impl State {
    pub const ALL: [State; 6] = [
        State::FreeRun,
        State::Holdover,
        State::PreLocked,
        State::Locked,
        State::LossOfLock,
        State::PreLocked2,
    ];

    /// As document 01 calls it.
    pub const fn name(self) -> &'static str {
        match self {
            State::FreeRun => "Free Run",
            State::Holdover => "Holdover",
            State::PreLocked => "Pre-locked",
            State::Locked => "Locked",
            State::LossOfLock => "Loss of lock",
            State::PreLocked2 => "Pre-locked 2",
        }
    }

    /// "Holdover if Ready, otherwise Free Run"
    pub(crate) fn without_reference(ready: bool) -> State {
        if ready {
            State::Holdover
        } else {
            State::FreeRun
        }
    }
}

#[derive(Clone, Copy, Debug, PartialEq, Eq)]
pub struct Pll {
    pub state: State,
    pub lock_run: u8,
    pub unlock_run: u16,
}

impl Pll {
    pub fn fresh() -> Pll {
        Pll {
            state: State::FreeRun,
            lock_run: 0,
            unlock_run: 0,
        }
    }

    /// Step 3, for a tick that begins with a reference selected. "Lock flag
    /// set: lock run +1 up to 16, unlock run 0. Clear: unlock run +1, lock run
    /// 0, and Locked becomes Loss of lock. Lock run 16 gives Locked."
    pub fn follow_lock(&mut self, lock: bool) {
        if lock {
            if self.lock_run < LOCK_TICKS {
                self.lock_run += 1;
            }
            self.unlock_run = 0;
        } else {
            self.unlock_run += 1;
            self.lock_run = 0;
            if self.state == State::Locked {
                self.state = State::LossOfLock;
            }
        }
        if self.lock_run == LOCK_TICKS {
            self.state = State::Locked;
        }
    }

    /// "Both runs restart at 0 when the selection changes."
    pub fn restart_runs(&mut self) {
        self.lock_run = 0;
        self.unlock_run = 0;
    }
}

//! The table: its places, its states, and the test of soundness.

/// 16-byte identifier of a transaction or a resource manager, held as the
/// big-endian number, so that `<` compares the bytes from the first.
#[derive(Clone, Copy, Debug, Default, PartialEq, Eq, PartialOrd, Ord)]
pub struct Id(u128);

impl Id {
    pub const fn from_bytes(bytes: [u8; 16]) -> Self {
        Self(u128::from_be_bytes(bytes))
    }

    pub const fn to_bytes(self) -> [u8; 16] {
        self.0.to_be_bytes()
    }

    /// The identifier of the trace program: last byte given, others zero.
    pub const fn from_last(last: u8) -> Self {
        Self(last as u128)
    }

    pub const fn is_zero(self) -> bool {
        self.0 == 0
    }
}

#[derive(Clone, Copy, Debug, Default, PartialEq, Eq)]
#[repr(u8)]
pub enum TransactionState {
    #[default]
    Empty = 0,
    Active = 1,
    PhaseZero = 2,
    PhaseOne = 3,
    SinglePhase = 4,
    Committing = 5,
    Aborting = 6,
}

#[derive(Clone, Copy, Debug, Default, PartialEq, Eq)]
#[repr(u8)]
pub enum EnlistmentState {
    #[default]
    Empty = 0,
    Active = 1,
    Zero = 2,
    Preparing = 3,
    Prepared = 4,
    PreparedLost = 5,
    OnePhase = 6,
    ToldCommit = 7,
    FailedToNotify = 8,
    ToldAbort = 9,
    Done = 10,
}

#[derive(Clone, Copy, Debug, Default, PartialEq, Eq)]
#[repr(u8)]
pub enum Kind {
    #[default]
    PhaseZero = 0,
    Volatile = 1,
    Durable = 2,
}

/// A transaction place; the default is the empty place.
#[derive(Clone, Copy, Debug, Default, PartialEq, Eq)]
pub struct Transaction {
    pub id: Id,
    pub state: TransactionState,
}

/// An enlistment place; the default is the empty place.
#[derive(Clone, Copy, Debug, Default, PartialEq, Eq)]
pub struct Enlistment {
    pub transaction: Id,
    pub rm: Id,
    pub number: u32,
    pub kind: Kind,
    pub single: bool,
    pub state: EnlistmentState,
}

pub const TRANSACTIONS: usize = 32;
pub const ENLISTMENTS: usize = 128;
pub const PER_TRANSACTION: usize = 16;
pub const LARGEST_LOG: usize = 65_536;

#[derive(Clone, Debug, PartialEq, Eq)]
pub struct Table {
    pub transactions: [Transaction; TRANSACTIONS],
    pub enlistments: [Enlistment; ENLISTMENTS],
    pub capacity: usize,
    pub used: usize,
}

impl Default for Table {
    /// The all-zero table of a refused restart.
    fn default() -> Self {
        Self::fresh(0, 0)
    }
}

/// What the soundness test gathers about one transaction.
#[derive(Clone, Copy, Default)]
struct Census {
    /// A bit for each pair of kind and state met.
    pairs: u64,
    places: [u8; PER_TRANSACTION],
    held: usize,
    marked: bool,
}

const P: Kind = Kind::PhaseZero;
const V: Kind = Kind::Volatile;
const D: Kind = Kind::Durable;

const fn pair(kind: Kind, state: EnlistmentState) -> u64 {
    1 << (kind as u32 * 16 + state as u32)
}

const ANY_DURABLE: u64 = 0xffff << (Kind::Durable as u32 * 16);

impl Census {
    /// The line of the paper's table for a transaction in `state`.
    fn fits(&self, state: TransactionState) -> bool {
        use EnlistmentState::*;
        const fn all(state: EnlistmentState) -> u64 {
            pair(P, state) | later(state)
        }
        const fn later(state: EnlistmentState) -> u64 {
            pair(V, state) | pair(D, state)
        }
        // Pairs the transaction may hold, and those of which it needs one.
        let (allowed, needed) = match state {
            TransactionState::Empty => return self.held == 0,
            TransactionState::Active => (all(Active), None),
            TransactionState::PhaseZero => (pair(P, Zero) | later(Active), Some(pair(P, Zero))),
            TransactionState::PhaseOne => (
                later(Preparing) | later(Prepared) | pair(D, PreparedLost),
                Some(later(Preparing)),
            ),
            TransactionState::SinglePhase => {
                if self.held != 1 || !self.marked {
                    return false;
                }
                (later(OnePhase), None)
            }
            TransactionState::Committing => {
                let told = later(ToldCommit) | pair(D, FailedToNotify);
                (told | later(Done), Some(told))
            }
            TransactionState::Aborting => (all(ToldAbort) | all(Done), Some(all(ToldAbort))),
        };
        self.pairs & !allowed == 0 && needed.is_none_or(|needed| self.pairs & needed != 0)
    }
}

/// The places of live transactions by identifier: a hash table with open
/// addressing, for the soundness test alone. It holds place + 1; 0 is free.
struct Owners([u8; Self::SLOTS]);

impl Default for Owners {
    fn default() -> Self {
        Self([0; Self::SLOTS])
    }
}

impl Owners {
    const SLOTS: usize = 2 * TRANSACTIONS;

    /// The slot where `id` is, or else the free one where it belongs.
    fn slot(&self, table: &Table, id: Id) -> usize {
        let folded = (id.0 >> 64) as u64 ^ id.0 as u64;
        let mut slot = spread(folded) % Self::SLOTS;
        while self.0[slot] != 0 && table.transactions[usize::from(self.0[slot]) - 1].id != id {
            slot = (slot + 1) % Self::SLOTS;
        }
        slot
    }

    /// False if another place holds the same identifier.
    fn insert(&mut self, table: &Table, place: usize) -> bool {
        let slot = self.slot(table, table.transactions[place].id);
        let new = self.0[slot] == 0;
        self.0[slot] = place as u8 + 1;
        new
    }

    fn find(&self, table: &Table, id: Id) -> Option<usize> {
        usize::from(self.0[self.slot(table, id)]).checked_sub(1)
    }
}

/// The numbers met, likewise; 0 is free.
struct Numbers([u32; Self::SLOTS]);

impl Default for Numbers {
    fn default() -> Self {
        Self([0; Self::SLOTS])
    }
}

impl Numbers {
    const SLOTS: usize = 2 * ENLISTMENTS;

    /// False if the number, which is not zero, has been met before.
    fn insert(&mut self, number: u32) -> bool {
        let mut slot = spread(number.into()) % Self::SLOTS;
        while self.0[slot] != 0 {
            if self.0[slot] == number {
                return false;
            }
            slot = (slot + 1) % Self::SLOTS;
        }
        self.0[slot] = number;
        true
    }
}

/// Spreads keys over the low bits.
fn spread(key: u64) -> usize {
    (key.wrapping_mul(0x9e37_79b9_7f4a_7c15) >> 48) as usize
}

impl Table {
    pub fn fresh(capacity: usize, used: usize) -> Self {
        Self {
            transactions: [Transaction::default(); TRANSACTIONS],
            enlistments: [Enlistment::default(); ENLISTMENTS],
            capacity,
            used,
        }
    }

    /// "A table is sound if ..."
    pub fn is_sound(&self) -> bool {
        let mut owners = Owners::default();
        for (place, transaction) in self.transactions.iter().enumerate() {
            if transaction.state == TransactionState::Empty {
                if *transaction != Transaction::default() {
                    return false;
                }
            } else if transaction.id.is_zero() || !owners.insert(self, place) {
                return false;
            }
        }

        let mut census = [Census::default(); TRANSACTIONS];
        let mut numbers = Numbers::default();
        for (place, enlistment) in self.enlistments.iter().enumerate() {
            if enlistment.state == EnlistmentState::Empty {
                if *enlistment != Enlistment::default() {
                    return false;
                }
                continue;
            }
            if enlistment.number == 0
                || enlistment.rm.is_zero()
                || (enlistment.kind == P && enlistment.single)
                || !numbers.insert(enlistment.number)
            {
                return false;
            }
            let Some(owner) = owners.find(self, enlistment.transaction) else {
                return false;
            };
            let census = &mut census[owner];
            if census.held == PER_TRANSACTION {
                return false;
            }
            if enlistment.kind == D && census.pairs & ANY_DURABLE != 0 {
                let second = census.places[..census.held].iter().any(|&earlier| {
                    let earlier = &self.enlistments[earlier as usize];
                    earlier.kind == D && earlier.rm == enlistment.rm
                });
                if second {
                    return false;
                }
            }
            census.places[census.held] = place as u8;
            census.held += 1;
            census.pairs |= pair(enlistment.kind, enlistment.state);
            census.marked |= enlistment.single;
        }

        let mut open = 0;
        for (transaction, census) in self.transactions.iter().zip(&census) {
            if !census.fits(transaction.state) {
                return false;
            }
            if transaction.state == TransactionState::Committing && census.pairs & ANY_DURABLE != 0
            {
                open += 1;
            }
        }
        8 <= self.used
            && self.used <= self.capacity
            && self.capacity <= LARGEST_LOG
            && self.used + 18 * open <= self.capacity
    }

    /// Place of the live transaction `id`, which is not zero.
    pub fn find_transaction(&self, id: Id) -> Option<usize> {
        self.transactions
            .iter()
            .position(|transaction| transaction.id == id)
    }

    /// Place of the enlistment `number`, which is not zero.
    pub fn find_enlistment(&self, number: u32) -> Option<usize> {
        self.enlistments
            .iter()
            .position(|enlistment| enlistment.number == number)
    }

    /// The enlistments of the transaction in place `owner`, by ascending
    /// number. The table is sound.
    pub fn members(&self, owner: usize) -> Members {
        let id = self.transactions[owner].id;
        let mut members = Members {
            places: [0; PER_TRANSACTION],
            held: 0,
        };
        for (place, enlistment) in self.enlistments.iter().enumerate() {
            if enlistment.transaction == id {
                let mut at = members.held;
                while at > 0 && self.enlistments[members.places[at - 1]].number > enlistment.number
                {
                    members.places[at] = members.places[at - 1];
                    at -= 1;
                }
                members.places[at] = place;
                members.held += 1;
            }
        }
        members
    }

    /// Whether the transaction in place `owner` is Committing with a D.
    pub fn is_open(&self, owner: usize) -> bool {
        let Transaction { id, state } = self.transactions[owner];
        state == TransactionState::Committing
            && self
                .enlistments
                .iter()
                .any(|e| e.transaction == id && e.kind == D)
    }

    pub fn open_count(&self) -> usize {
        (0..TRANSACTIONS)
            .filter(|&owner| self.is_open(owner))
            .count()
    }
}

/// Places of one transaction's enlistments.
#[derive(Clone, Copy)]
pub struct Members {
    places: [usize; PER_TRANSACTION],
    held: usize,
}

impl std::ops::Deref for Members {
    type Target = [usize];

    fn deref(&self) -> &[usize] {
        &self.places[..self.held]
    }
}

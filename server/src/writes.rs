//! Commands that change what a key has.
use crate::budget::{cost, Claim};
use crate::counts::Count;
use crate::index::{Over, Refused, Token};
use crate::item::{new_item, remade, Item, NewItem, WON};
use crate::key_locks::KeyLock;
use crate::number;
use crate::request::{Change, How, Order};
use crate::store::{Answer, Changed, Fault, Found, Hit, Store};
use cefrodil_map::Reason;

/// How often a call tries again that others' changes of its key disturbed.
const TRIES: u32 = 1000;

/// An item from this size on is freed as soon as it can be. Of smaller ones some wait.
const LARGE: u64 = 1 << 15;

impl Store {
    /// Stores this value as it is ordered.
    pub fn store(&self, order: &Order, data: &[u8]) -> Result<Answer, Fault> {
        self.store_under(&mut None, order, data)
    }

    /// The same, with the lock of the key, if there is one, or if it is needed.
    pub(crate) fn store_under<'a>(&'a self, lock: &mut Option<KeyLock<'a>>, order: &Order, data: &[u8]) -> Result<Answer, Fault> {
        self.books.counts.add(Count::Sets);
        let stored = if order.is_plain() { self.set(order, data) } else { self.store_if(lock, order, data) };
        match stored {
            Err(Fault::NoRoom) => self.books.counts.add(Count::NoMemory),
            Err(Fault::TooLong) => self.books.counts.add(Count::TooLarge),
            Ok(Answer::Done(_)) => self.books.counts.add(Count::Stored),
            _ => {}
        }
        match stored {
            _ if order.compare.is_none() => {}
            Ok(Answer::Done(_)) => self.books.counts.add(Count::CasHits),
            Ok(Answer::Exists) => self.books.counts.add(Count::CasBadValue),
            Ok(_) => self.books.counts.add(Count::CasMisses),
            Err(_) => {}
        }
        stored.map_err(|why| self.refuse(order, why))
    }

    /// Refuses an order. An older value must not outlive a failed `set`.
    pub fn refuse(&self, order: &Order, why: Fault) -> Fault {
        if order.is_plain() && self.delete_if(order.key, |_| true).is_err() {
            return Fault::Stale;
        }
        why
    }

    fn set(&self, order: &Order, data: &[u8]) -> Result<Answer, Fault> {
        let born = self.books.clock.now();
        let claim = self.make_room(cost(order.key.len(), data.len()))?;
        let put = self.put(claim, || {
            let fresh = || self.fresh(order, born, data);
            let item = fresh().or_else(|| self.with_more_memory(data.len(), fresh)).ok_or(Refused::Full)?;
            self.index.put(item, Over::Any)
        })?;
        Ok(put.map_or(Answer::NotStored, Answer::Done))
    }

    fn fresh(&self, order: &Order, born: u64, data: &[u8]) -> Option<NewItem> {
        let item = new_item(born, order.flags, self.books.clock.deadline(order.expiry), order.key, &[data])?;
        if order.marks != 0 {
            item.mark(order.marks);
        }
        Some(item)
    }

    /// What is to be put over an item that was found, if there is memory, or the answer if nothing is.
    fn over(&self, order: &Order, data: &[u8], Hit { item, token, now }: Hit) -> Result<Option<NewItem>, Result<Answer, Fault>> {
        let sets = matches!(order.how, How::Set | How::Replace);
        let makes_stale = sets && order.may_be_stale && order.compare.is_some_and(|compare| compare < token);
        let value = match order.how {
            How::Add => return Err(Ok(Answer::NotStored)),
            _ if !makes_stale && order.compare.is_some_and(|compare| compare != token) => return Err(Ok(Answer::Exists)),
            How::Append => [item.value(), data],
            How::Prepend => [data, item.value()],
            _ => {
                let next = self.fresh(order, now, data);
                if makes_stale {
                    next.iter().for_each(|next| next.make_stale(item.deadline(), item.has(WON)));
                }
                return Ok(next);
            }
        };
        if item.value().len() + data.len() > self.options.longest {
            return Err(Err(Fault::TooLong));
        }
        Ok(remade(item, now, item.deadline(), &value))
    }

    fn store_if<'a>(&'a self, lock: &mut Option<KeyLock<'a>>, order: &Order, data: &[u8]) -> Result<Answer, Fault> {
        // These keep the deadline of what they replace.
        if lock.is_none() && (order.may_be_stale || matches!(order.how, How::Append | How::Prepend)) {
            *lock = Some(self.lock(order.key)?);
        }
        let mut was_refused = false;
        for _ in 0..TRIES {
            let found = self.find(order.key, |hit| (self.over(order, data, hit), hit.item.value().len()))?;
            let (next, over, old) = match (found, order.how) {
                (Found::Live((Err(answer), _), _), _) => return answer,
                (Found::Live((Ok(next), old), token), _) => (next, Found::Live((), token), old),
                (_, How::Set | How::Replace) if order.compare.is_some() => return Ok(Answer::NotFound),
                (_, How::Replace | How::Append | How::Prepend) => return Ok(Answer::NotStored),
                // Another thread may be giving it a new time to live.
                (Found::Dead(_), _) if lock.is_none() => {
                    *lock = Some(self.lock(order.key)?);
                    continue;
                }
                (Found::Dead(token), _) => (self.fresh(order, self.books.clock.now(), data), Found::Dead(token), 0),
                (Found::Absent, _) => (self.fresh(order, self.books.clock.now(), data), Found::Absent, 0),
            };
            let Some(next) = next else {
                self.make_way(old + data.len(), &mut was_refused)?;
                continue;
            };
            if let Some(token) = self.put_over(order.key, over, next)? {
                return Ok(Answer::Done(token));
            }
        }
        Err(Fault::Disturbed)
    }

    /// Puts an item over what was found. `None`: that is not there any more.
    fn put_over(&self, key: &[u8], found: Found<()>, next: NewItem) -> Result<Option<Token>, Fault> {
        let bytes = cost(key.len(), next.value().len());
        match found {
            Found::Absent => self.put(self.make_room(bytes)?, || self.index.put(next, Over::Nothing)),
            Found::Dead(token) => self.put(self.make_room(bytes)?, || self.index.put(next, Over::Token(token))),
            Found::Live((), token) => {
                let put = self.put(self.make_room_later(bytes)?, || self.index.put(next, Over::Token(token)))?;
                // So the old value does not give way to the new one.
                self.balance(bytes);
                Ok(put)
            }
        }
    }

    /// Puts an item for which there is room. `None`: its key has no longer what it had.
    fn put(&self, claim: Claim<'_>, put: impl FnOnce() -> Result<Token, Refused>) -> Result<Option<Token>, Fault> {
        let (put, bytes) = (put(), claim.bytes);
        match put {
            Ok(_) => claim.keep(),
            Err(_) => drop(claim),
        }
        if bytes >= LARGE {
            self.index.sweep();
            self.seats.look();
        }
        put.map(Some).or_else(|why| self.not_put(why))
    }

    fn not_put(&self, why: Refused) -> Result<Option<Token>, Fault> {
        if matches!(why, Refused::Changed | Refused::Absent) {
            return Ok(None);
        }
        self.disturbed(why);
        Err(Fault::NoRoom)
    }

    /// Deletes the key's value, if it has this token.
    pub fn delete(&self, key: &[u8], compare: Option<Token>) -> Result<Answer, Fault> {
        let (count, answer) = match self.delete_if(key, |token| compare.is_none_or(|compare| compare == token))? {
            Found::Live(true, token) => (Count::DeleteHits, Answer::Done(token)),
            Found::Live(false, _) => return Ok(Answer::Exists),
            Found::Dead(..) | Found::Absent => (Count::DeleteMisses, Answer::NotFound),
        };
        self.books.counts.add(count);
        Ok(answer)
    }

    /// Removes the key, and returns what it was: if it was live, whether its token was to be deleted.
    fn delete_if(&self, key: &[u8], is_meant: impl Fn(Token) -> bool) -> Result<Found<bool>, Fault> {
        let mut lock = None;
        for _ in 0..TRIES {
            let found = self.find(key, |_| ())?;
            let token = match found {
                Found::Absent => return Ok(Found::Absent),
                Found::Live((), token) if !is_meant(token) => return Ok(Found::Live(false, token)),
                // Another thread may be giving it a new time to live.
                Found::Dead(_) if lock.is_none() => {
                    lock = Some(self.lock(key)?);
                    continue;
                }
                Found::Live((), token) | Found::Dead(token) => token,
            };
            match self.index.remove(self.index.hash_of(key), token, Reason::Removed) {
                Ok(_) if matches!(found, Found::Dead(_)) => return Ok(Found::Dead(token)),
                Ok(_) => return Ok(Found::Live(true, token)),
                Err(Refused::Absent) => return Ok(Found::Absent),
                Err(Refused::Changed) => {}
                Err(why) => return Err(self.disturbed(why)),
            }
        }
        Err(Fault::Disturbed)
    }

    /// Adds to the key's number or subtracts from it. The item gets the deadline, if there is one.
    pub fn change(&self, key: &[u8], change: Change, compare: Option<Token>, deadline: Option<u64>) -> Result<Changed, Fault> {
        self.put_changed(key, compare, |item, born| {
            let number = change.of(number::unsigned(item.value())?);
            let deadline = deadline.unwrap_or(item.deadline());
            Some((remade(item, born, deadline, &[number.to_string().as_bytes()]), number))
        })
    }

    /// Makes the key's value stale, if it has this token. The item gets the deadline, if there is one.
    pub fn invalidate(&self, key: &[u8], compare: Option<Token>, deadline: Option<u64>) -> Result<Answer, Fault> {
        let stale = self.put_changed(key, compare, |item, born| {
            let next = remade(item, born, item.deadline(), &[item.value()]).inspect(|next| {
                next.use_as(item);
                next.make_stale(deadline.unwrap_or(item.deadline()), false);
            });
            Some((next, ()))
        })?;
        match stale {
            Changed::Changed((), token, _) => return Ok(Answer::Done(token)),
            Changed::Exists => return Ok(Answer::Exists),
            Changed::NotFound | Changed::NotNumeric => self.books.counts.add(Count::DeleteMisses),
        }
        Ok(Answer::NotFound)
    }

    /// Puts over the key's item, if it has this token, what is made of it.
    fn put_changed<T>(
        &self,
        key: &[u8],
        compare: Option<Token>,
        change: impl Fn(&Item, u64) -> Option<(Option<NewItem>, T)>,
    ) -> Result<Changed<T>, Fault> {
        let (_lock, mut was_refused) = (self.lock(key)?, false);
        let is_meant = |token| compare.is_none_or(|compare| compare == token);
        for _ in 0..TRIES {
            let found = self.find(key, |hit| (is_meant(hit.token).then(|| change(hit.item, hit.now)), hit.item.value().len()))?;
            let (next, told, token, old) = match found {
                Found::Absent | Found::Dead(..) => return Ok(Changed::NotFound),
                Found::Live((None, _), _) => return Ok(Changed::Exists),
                Found::Live((Some(None), _), _) => return Ok(Changed::NotNumeric),
                Found::Live((Some(Some((next, told))), old), token) => (next, told, token, old),
            };
            let Some(next) = next else {
                self.make_way(old, &mut was_refused)?;
                continue;
            };
            let deadline = next.deadline();
            if let Some(token) = self.put_over(key, Found::Live((), token), next)? {
                return Ok(Changed::Changed(told, token, deadline));
            }
        }
        Err(Fault::Disturbed)
    }
}

impl Order<'_> {
    /// Whether it is a `set`, which overwrites whatever there is.
    fn is_plain(&self) -> bool {
        self.how == How::Set && self.compare.is_none()
    }
}

impl Change {
    fn of(self, number: u64) -> u64 {
        match self {
            Change::Add(delta) => number.wrapping_add(delta),
            Change::Subtract(delta) => number.saturating_sub(delta),
        }
    }
}

//! A client's connection: its buffers, and what it may take in one turn.
use crate::counts::Count;
use crate::dialogue::{Dialogue, Turn};
use crate::holders::{Cut, Home};
use crate::input::Input;
use crate::log::Seldom;
use crate::output::Output;
use crate::seat::{Seat, State};
use crate::store::Store;
use crate::stream::Stream;
use mio::event::Event;
use std::fmt::Arguments;
use std::io::{self, ErrorKind, Read};
use std::os::fd::{AsRawFd, RawFd};

/// Buffers from this size on are counted also within a turn.
const LARGE: usize = 1 << 17;

/// How often a turn reads or carries commands out.
const ROUNDS: u32 = 8;

/// How many lines a minute say who was cut off.
const MOST_TOLD: u32 = 20;

/// What a connection waits for.
#[derive(Clone, Copy, Debug, PartialEq, Eq)]
pub enum Next {
    Event,
    /// Its next turn: there is more to do.
    Turn,
    /// Nothing: it has ended.
    Nothing,
}

/// A client's connection. The seat is dropped before the stream is closed, since it shows that to others.
pub struct Connection {
    seat: Seat,
    stream: Stream,
    dialogue: Dialogue,
    input: Input,
    /// So many bytes of input must be there before there is anything to do.
    needs: usize,
    output: Output,
    is_ending: bool,
    /// Nothing more had come when it was read last. What comes later is an event.
    is_dry: bool,
    /// The client sends no more. That event may have come with the last bytes.
    is_half_closed: bool,
}

impl Connection {
    pub fn new(stream: Stream, seat: Seat) -> Connection {
        let (dialogue, input, output) = (Dialogue::of(stream.as_raw_fd()), Input::default(), Output::default());
        let (is_ending, is_dry, is_half_closed) = (false, false, false);
        Connection { seat, stream, dialogue, input, needs: 1, output, is_ending, is_dry, is_half_closed }
    }

    pub fn file(&self) -> RawFd {
        self.stream.as_raw_fd()
    }

    /// Who serves it from now on.
    pub fn settle(&mut self, home: Home) {
        self.seat.settle(home);
    }

    pub fn note(&mut self, event: &Event) {
        self.is_half_closed |= event.is_read_closed();
        self.read_again();
    }

    /// Reads again, though nothing had come before.
    pub fn read_again(&mut self) {
        self.is_dry = false;
    }

    /// Whether no command has begun, and all answers are sent.
    pub fn is_idle(&self) -> bool {
        self.output.is_empty() && self.input.len() == 0 && !self.dialogue.is_within()
    }

    /// When it last had a turn, in seconds since the server started.
    pub fn last_turn(&self) -> u32 {
        self.seat.turn()
    }

    pub fn note_turn(&self, second: u32) {
        self.seat.note(second, self.state());
    }

    fn state(&self) -> State {
        if !self.output.is_empty() {
            State::Sent
        } else if self.dialogue.is_skipping() {
            State::Skipped
        } else if self.input.len() > 0 {
            State::Block
        } else {
            State::Command
        }
    }

    /// Reads, carries commands out and sends answers, as far as that is possible at once and not too much.
    pub fn turn(&mut self, store: &Store) -> io::Result<Next> {
        if let Some(cut) = self.seat.cut() {
            if !self.gives_up(store, cut) {
                return Ok(Next::Nothing);
            }
        }
        let next = self.turn_with_buffers(store);
        self.seat.hold(self.held(), self.output.item());
        next
    }

    /// All clients hold too much, and this one held most for longest. Returns whether it is enough to refuse the value that it sends.
    fn gives_up(&mut self, store: &Store, Cut { bytes, time }: Cut) -> bool {
        let is_enough = self.output.is_empty() && self.input.len() > 0;
        let what = if is_enough {
            "has its value refused, which it has not sent to the end"
        } else {
            "is cut off, since it does not read"
        };
        let seconds = time.as_secs_f32();
        self.tell(format_args!("{what}: {bytes} bytes for {seconds:.1} s. All clients hold half of the memory limit (-m)"));
        if is_enough {
            self.refuse_block();
        } else {
            store.books.counts.add(Count::NoBuffers);
        }
        is_enough
    }

    fn refuse_block(&mut self) {
        self.dialogue.refuse_block();
        self.needs = 0;
    }

    fn tell(&self, what: Arguments) {
        static SELDOM: Seldom = Seldom::new(MOST_TOLD);
        SELDOM.log(format_args!("{} {what}", self.stream));
    }

    /// What the client's own buffers take.
    fn held(&self) -> usize {
        self.input.held() + self.output.held()
    }

    fn turn_with_buffers(&mut self, store: &Store) -> io::Result<Next> {
        self.send(store)?;
        if !self.output.is_empty() {
            return Ok(Next::Event);
        }
        let has_buffers = self.output.borrow() & self.input.borrow();
        let next = if has_buffers { self.rounds(store).and_then(|next| self.keep(store, next)) } else { Ok(None) };
        if !matches!(next, Ok(Some(_))) {
            self.input.forget();
        }
        let is_kept = self.output.give_back();
        if let (Some(next), true) = (next?, is_kept) {
            return Ok(next);
        }
        store.books.counts.add(Count::NoBuffers);
        self.tell(format_args!("is cut off: the system has no memory for what it sends or has not read"));
        Ok(Next::Nothing)
    }

    /// Keeps what waits, or refuses the value that it is part of. `None`: there is no memory for it.
    fn keep(&mut self, store: &Store, next: Next) -> io::Result<Option<Next>> {
        if self.input.keep() || store.with_more_memory(self.input.len(), || self.input.keep().then_some(())).is_some() {
            return Ok(Some(next));
        }
        self.refuse_block();
        self.answer(store);
        self.send(store)?;
        Ok(self.input.keep().then_some(next))
    }

    fn rounds(&mut self, store: &Store) -> io::Result<Next> {
        for _ in 0..ROUNDS {
            self.send(store)?;
            if !self.output.is_empty() {
                return Ok(Next::Event);
            }
            if self.is_ending {
                return Ok(Next::Nothing);
            }
            if self.input.len() >= self.needs {
                self.answer(store);
            } else if !self.receive(store)? {
                return Ok(Next::Event);
            }
        }
        Ok(Next::Turn)
    }

    fn answer(&mut self, store: &Store) {
        let (done, turn) = self.dialogue.turn(store, self.input.waiting(), &mut self.output);
        self.input.consume(done);
        if done > 0 {
            // What it holds from now on is something else.
            self.seat.leave();
        }
        match turn {
            Turn::Needs(bytes) => self.needs = bytes,
            Turn::HasMore => self.needs = 0,
            Turn::Ends => self.is_ending = true,
        }
    }

    /// Reads once. Returns whether that changed anything.
    fn receive(&mut self, store: &Store) -> io::Result<bool> {
        if self.is_dry && !self.is_half_closed {
            return Ok(false);
        }
        let needs = self.needs;
        let has_room =
            self.input.make_room(needs) || store.with_more_memory(needs, || self.input.make_room(needs).then_some(())).is_some();
        if !has_room {
            self.refuse_block();
            return Ok(true);
        }
        let room = self.input.room();
        match retry(|| self.stream.read(room))? {
            Some(0) => self.is_ending = true,
            Some(count) => {
                self.is_dry = count < room.len() && self.stream.is_drained_by_short_reads();
                self.input.add(count);
                store.books.counts.add_many(Count::BytesRead, count as u64);
            }
            None => return Ok(false),
        }
        if self.input.held() > LARGE {
            self.seat.count(self.held());
        }
        Ok(true)
    }

    fn send(&mut self, store: &Store) -> io::Result<()> {
        while !self.output.is_empty() {
            match retry(|| self.output.send(&mut self.stream))? {
                Some(0) => return Err(ErrorKind::WriteZero.into()),
                Some(count) => store.books.counts.add_many(Count::BytesWritten, count as u64),
                None => break,
            }
        }
        Ok(())
    }
}

/// Calls again if a signal interrupted the call. `None`: it would block.
fn retry(mut call: impl FnMut() -> io::Result<usize>) -> io::Result<Option<usize>> {
    loop {
        match call() {
            Ok(count) => return Ok(Some(count)),
            Err(why) if why.kind() == ErrorKind::WouldBlock => return Ok(None),
            Err(why) if why.kind() == ErrorKind::Interrupted => {}
            Err(why) => return Err(why),
        }
    }
}

/// Gets this thread its buffers, if there is memory for them now.
pub fn warm_up() {
    let (mut input, mut output) = (Input::default(), Output::default());
    let _ = output.borrow() & input.borrow();
    input.forget();
    output.give_back();
}

//! A mock of the peripheral's registers, with the bit positions of the ESP32-C3's manual. Plain registers are cells.
//! The receive FIFO is a list of entries: it gives the message counter, status bits 0 and 8 and the data window, and
//! the release command pops it. What is written to the data window is kept with the transmit command that follows.
use std::{
    cell::{Cell, RefCell, UnsafeCell},
    collections::VecDeque,
    marker::PhantomData,
};

use trace::Event;

const FRAME_LENGTH: usize = 13;
const REGISTERS: usize = 13;

const RELEASE: u32 = 1 << 2;
const TRANSMIT_OR_SELF_RECEPTION: u32 = 1 << 0 | 1 << 4;
const RECEIVE_READY: u32 = 1 << 0;
const MISS: u32 = 1 << 8;

/// A data register that was not written since the window was opened has these bits; a read drops them.
const UNWRITTEN: u32 = 0x5EED_0000;
/// What the data window shows where no whole frame stands at the front.
const NO_FRAME: [u8; FRAME_LENGTH] = [0xEE; FRAME_LENGTH];

#[derive(Debug, Clone, Copy, PartialEq, Eq)]
pub enum Entry {
    Whole([u8; FRAME_LENGTH]),
    OverrunMark,
}

#[derive(Debug, Clone, Copy, PartialEq, Eq)]
pub struct Sent {
    pub command: u32,
    /// Each byte that was written to the data window since it was opened.
    pub bytes: [Option<u8>; FRAME_LENGTH],
}

pub struct RegisterBlock {
    words: [Cell<u32>; REGISTERS],
    data: UnsafeCell<[u32; FRAME_LENGTH]>,
    pub fifo: RefCell<VecDeque<Entry>>,
    /// What the data window and all of the status word are, where they do not follow the FIFO.
    pub window: Cell<Option<[u8; FRAME_LENGTH]>>,
    pub sent: RefCell<Vec<Sent>>,
}

impl Default for RegisterBlock {
    fn default() -> Self {
        RegisterBlock {
            words: Default::default(),
            data: UnsafeCell::new([UNWRITTEN; FRAME_LENGTH]),
            fifo: Default::default(),
            window: Cell::new(None),
            sent: Default::default(),
        }
    }
}

impl RegisterBlock {
    pub fn data(&self, place: usize) -> DataRegister<'_> {
        DataRegister { block: self, place }
    }

    /// As after a reset.
    pub fn clear(&self) {
        self.words.iter().for_each(|word| word.set(0));
        self.fifo.borrow_mut().clear();
        self.window.set(None);
        self.sent.borrow_mut().clear();
    }

    fn load(&self, place: usize) -> u32 {
        let word = self.words[place].get();
        match place {
            Status::PLACE if self.window.get().is_none() => word & !(RECEIVE_READY | MISS) | self.fifo_status(),
            RxMessageCnt::PLACE => self.fifo.borrow().len() as u32,
            _ => word,
        }
    }

    fn fifo_status(&self) -> u32 {
        match self.fifo.borrow().front() {
            None => 0,
            Some(Entry::Whole(_)) => RECEIVE_READY,
            Some(Entry::OverrunMark) => RECEIVE_READY | MISS,
        }
    }

    fn store(&self, place: usize, word: u32) {
        self.words[place].set(word);
        if place != Cmd::PLACE {
            return;
        }
        if word & RELEASE != 0 {
            self.fifo.borrow_mut().pop_front();
        }
        if word & TRANSMIT_OR_SELF_RECEPTION != 0 {
            self.sent.borrow_mut().push(Sent { command: word, bytes: self.written() });
        }
    }

    fn written(&self) -> [Option<u8>; FRAME_LENGTH] {
        let words = unsafe { *self.data.get() };
        words.map(|word| (word & !0xFF != UNWRITTEN).then_some(word as u8))
    }
}

pub struct DataRegister<'a> {
    block: &'a RegisterBlock,
    place: usize,
}

impl DataRegister<'_> {
    /// Opens the window: a read finds the FIFO's front there, and a write can be told from none.
    pub fn as_ptr(&self) -> *mut u32 {
        trace::before("data");
        trace::push(Event::Data);
        let front = match self.block.fifo.borrow().front() {
            Some(Entry::Whole(bytes)) => *bytes,
            _ => NO_FRAME,
        };
        let shown = self.block.window.get().unwrap_or(front);
        let window = self.block.data.get();
        unsafe { *window = shown.map(|byte| UNWRITTEN | u32::from(byte)) };
        window.cast::<u32>().wrapping_add(self.place)
    }
}

/// One of the plain registers.
pub trait Kind {
    const PLACE: usize;
    const NAME: &'static str;
}

pub struct Register<'a, K>(&'a RegisterBlock, PhantomData<K>);

impl<K: Kind> Register<'_, K> {
    pub fn read(&self) -> Reading<K> {
        trace::before(K::NAME);
        let word = self.0.load(K::PLACE);
        trace::push(Event::Read { register: K::NAME, word });
        Reading(word, PhantomData)
    }

    pub fn write<F: FnOnce(&mut Writing<K>) -> &mut Writing<K>>(&self, change: F) {
        let mut writing = Writing(0, PhantomData);
        change(&mut writing);
        self.store(writing.0);
    }

    pub fn modify<F: for<'w> FnOnce(&Reading<K>, &'w mut Writing<K>) -> &'w mut Writing<K>>(&self, change: F) {
        let reading = self.read();
        let mut writing = Writing(reading.0, PhantomData);
        change(&reading, &mut writing);
        self.store(writing.0);
    }

    /// The word as a comparison sets it: no access, and no effect.
    pub fn preset(&self, word: u32) {
        self.0.words[K::PLACE].set(word);
    }

    fn store(&self, word: u32) {
        trace::before(K::NAME);
        trace::push(Event::Write { register: K::NAME, word });
        self.0.store(K::PLACE, word);
    }
}

pub struct Reading<K>(u32, PhantomData<K>);

impl<K> Reading<K> {
    pub fn bits(&self) -> u32 {
        self.0
    }
}

pub struct Writing<K>(u32, PhantomData<K>);

impl<K> Writing<K> {
    pub unsafe fn bits(&mut self, word: u32) -> &mut Self {
        self.0 = word;
        self
    }

    fn put(&mut self, lowest: u32, mask: u32, value: u32) -> &mut Self {
        self.0 = self.0 & !(mask << lowest) | (value & mask) << lowest;
        self
    }
}

pub struct BitReading(bool);

impl BitReading {
    pub fn bit_is_set(&self) -> bool {
        self.0
    }

    pub fn bit_is_clear(&self) -> bool {
        !self.0
    }
}

pub struct BitWriting<'a, K>(&'a mut Writing<K>, u32);

impl<'a, K> BitWriting<'a, K> {
    pub fn bit(self, set: bool) -> &'a mut Writing<K> {
        self.0.put(self.1, 1, u32::from(set))
    }

    pub fn set_bit(self) -> &'a mut Writing<K> {
        self.bit(true)
    }

    pub fn clear_bit(self) -> &'a mut Writing<K> {
        self.bit(false)
    }
}

pub struct FieldReading<T>(T);

impl<T: Copy> FieldReading<T> {
    pub fn bits(&self) -> T {
        self.0
    }
}

pub struct FieldWriting<'a, K, T> {
    writing: &'a mut Writing<K>,
    lowest: u32,
    mask: u32,
    value: PhantomData<T>,
}

impl<'a, K, T: Into<u32>> FieldWriting<'a, K, T> {
    pub unsafe fn bits(self, value: T) -> &'a mut Writing<K> {
        self.writing.put(self.lowest, self.mask, value.into())
    }
}

/// A line for each register: its place, its type, its name, its bits; then its fields, by type, lowest bit and mask.
macro_rules! registers {
    ($($place:literal $kind:ident $name:ident {
        $($bit:ident $at:literal)* $(; $($field:ident $type:ident $lowest:literal $mask:literal)*)?
    })*) => { $(
        pub struct $kind;
        impl Kind for $kind {
            const PLACE: usize = $place;
            const NAME: &'static str = stringify!($name);
        }
        impl RegisterBlock {
            pub fn $name(&self) -> Register<'_, $kind> {
                Register(self, PhantomData)
            }
        }
        impl Reading<$kind> {
            $(pub fn $bit(&self) -> BitReading {
                BitReading(self.0 >> $at & 1 == 1)
            })*
            $($(pub fn $field(&self) -> FieldReading<$type> {
                FieldReading((self.0 >> $lowest & $mask) as $type)
            })*)?
        }
        impl Writing<$kind> {
            $(pub fn $bit(&mut self) -> BitWriting<'_, $kind> {
                BitWriting(self, $at)
            })*
            $($(pub fn $field(&mut self) -> FieldWriting<'_, $kind, $type> {
                FieldWriting { writing: self, lowest: $lowest, mask: $mask, value: PhantomData }
            })*)?
        }
    )* };
}

registers! {
    0 Mode mode { reset_mode 0 listen_only_mode 1 self_test_mode 2 rx_filter_mode 3 }
    1 Cmd cmd { tx_req 0 abort_tx 1 release_buf 2 clr_overrun 3 self_rx_req 4 }
    2 Status status {
        rx_buf_st 0 overrun_st 1 tx_buf_st 2 tx_complete 3 rx_st 4 tx_st 5 err_st 6 bus_off_st 7 miss_st 8
    }
    3 IntRaw int_raw {
        rx_int_st 0 tx_int_st 1 err_warn_int_st 2 overrun_int_st 3 err_passive_int_st 5 arb_lost_int_st 6
        bus_err_int_st 7
    }
    4 IntEna int_ena {
        rx_int_ena 0 tx_int_ena 1 err_warn_int_ena 2 overrun_int_ena 3 err_passive_int_ena 5 arb_lost_int_ena 6
        bus_err_int_ena 7
    }
    5 BusTiming0 bus_timing_0 { ; baud_presc u16 0 0x1FFF sync_jump_width u8 14 3 }
    6 BusTiming1 bus_timing_1 { time_samp 7 ; time_seg1 u8 0 15 time_seg2 u8 4 7 }
    7 ErrCodeCap err_code_cap { }
    8 ErrWarningLimit err_warning_limit { ; err_warning_limit u8 0 0xFF }
    9 RxErrCnt rx_err_cnt { ; rx_err_cnt u8 0 0xFF }
    10 TxErrCnt tx_err_cnt { ; tx_err_cnt u8 0 0xFF }
    11 RxMessageCnt rx_message_cnt { ; rx_message_counter u8 0 0x7F }
    12 ClockDivider clock_divider { clock_off 8 }
}

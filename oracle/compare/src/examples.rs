//! The settled examples (RULES 11), on the original and on the twin: the two mean what the rules mean.

use crate::area::Area;
use crate::op::{Answer, Op};
use calls::Side;

/// An area of one side, and the numbers that its calls answer.
struct Desk {
    side: &'static dyn Side,
    area: Area,
}

impl Desk {
    fn fresh(side: &'static dyn Side, len: usize) -> Self {
        let mut desk = Desk { side, area: Area::new(len, 0) };
        desk.area.set_len(len);
        assert_eq!(desk.go(Op::Format { len }).refusal, 0);
        desk
    }

    fn go(&mut self, op: Op) -> Answer {
        op.perform(self.side, &mut self.area)
    }

    fn add(&mut self, name: &str, value: &str) -> u32 {
        self.go(Op::Add { name: name.to_owned(), value: value.to_owned() }).refusal
    }

    fn update(&mut self, name: &str, value: &str) -> u32 {
        self.go(Op::Update { name: name.to_owned(), value: value.to_owned() }).refusal
    }

    /// Refusal, entry, nodes compared.
    fn find(&mut self, name: &str) -> (u32, u32, u64) {
        let found = self.go(Op::Find { name: name.to_owned() });
        (found.refusal, found.place, found.size)
    }

    /// Start and length of an entry's name, and its serial; both accepted.
    fn entry(&mut self, entry: u32) -> (u32, u64, u32) {
        let (name, serial) = (self.go(Op::Name { entry }), self.go(Op::Serial { entry }));
        assert_eq!((name.refusal, serial.refusal), (0, 0));
        (name.place, name.size, serial.place)
    }

    fn used(&self) -> u32 {
        self.area.word(0).unwrap()
    }

    fn data(&self, offset: usize) -> u32 {
        self.area.word(128 + offset).unwrap()
    }
}

fn on_both(example: fn(&'static dyn Side)) {
    example(&original::Original);
    example(&twin::Twin);
}

#[test]
fn room_for_one_name() {
    on_both(|side| {
        for (len, refusal, used, children) in [(364, 0, 236, 112), (363, 4, 136, 112), (263, 4, 112, 0)] {
            let mut desk = Desk::fresh(side, len);
            assert_eq!((desk.add("a", "x"), desk.used(), desk.data(16)), (refusal, used, children));
        }
    });
}

#[test]
fn two_names() {
    on_both(|side| {
        let mut desk = Desk::fresh(side, 4_096);
        assert_eq!(desk.add("ab.c", "12"), 0);
        assert_eq!((desk.data(16), desk.data(112 + 16), desk.data(136 + 4), desk.used()), (112, 136, 160, 264));
        assert_eq!((desk.find("ab.c"), desk.data(160)), ((0, 160, 2), 0x0200_0000));
        assert_eq!(desk.entry(160), (128 + 160 + 96, 4, 0x0200_0000));
        assert_eq!(desk.add("b", "q"), 0);
        assert_eq!((desk.data(112 + 8), desk.find("b"), desk.used()), (264, (0, 288, 2), 388));
        assert_eq!(desk.find("ab"), (3, 0, 0));
        assert_eq!((desk.update("ab.c", "345"), desk.data(160)), (0, 0x0300_0002));
    });
}

#[test]
fn short_and_long_values() {
    on_both(|side| {
        let mut desk = Desk::fresh(side, 4_096);
        assert_eq!((desk.add("a", &"v".repeat(91)), desk.data(136)), (0, 0x5b00_0000));
        let mut desk = Desk::fresh(side, 4_096);
        assert_eq!((desk.add("a", &"v".repeat(92)), desk.data(136), desk.used()), (0, 0x3201_0000, 332));
        let shown = desk.go(Op::Value { entry: 136 });
        assert_eq!((shown.refusal, shown.place, shown.size, desk.data(136 + 60)), (0, 128 + 236, 92, 100));
        assert_eq!(desk.entry(136), (128 + 136 + 96, 1, 0x3201_0000));
        let mut desk = Desk::fresh(side, 4_096);
        assert_eq!(desk.add("a", "x\0y"), 0);
        assert_eq!(desk.go(Op::Value { entry: 136 }).size, 1);
    });
}

#[test]
fn counters_and_their_distance() {
    on_both(|side| {
        let mut desk = Desk::fresh(side, 4_096);
        assert_eq!(desk.add("a", "v"), 0);
        desk.area.poke(128 + 136, 0x0102_fffe);
        assert_eq!((desk.update("a", "w"), desk.data(136)), (0, 0x0102_0000));
        assert_eq!(desk.go(Op::Distance { earlier: 0x0102_fffe, later: 0x0102_0000 }).place, 1);
    });
}

#[test]
fn empty_segments_are_met_on_the_way() {
    on_both(|side| {
        let mut desk = Desk::fresh(side, 4_096);
        assert_eq!(desk.find("a..b").0, 3);
        assert_eq!(desk.add("a", "v"), 0);
        assert_eq!(desk.find("a..b").0, 2);
    });
}

/// The smallest area in which update by name is not find, value and raw update: the entry lies over the backup slot.
#[test]
fn the_serial_is_read_before_any_store() {
    on_both(|side| {
        let mut desk = Desk::fresh(side, 264);
        assert_eq!(desk.add("a", ""), 4);
        desk.area.poke(128 + 112 + 4, 20);
        desk.area.poke(128 + 20, 2);
        assert_eq!((desk.update("a", ""), desk.data(20)), (0, 4));
    });
}

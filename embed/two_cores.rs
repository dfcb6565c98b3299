//! Has the operations of two cores judged.

#[repr(C)]
#[derive(Default, Debug)]
struct TardisVerdict {
    count: u64,
    core: u64,
    index: u64,
    file: u64,
    line: u64,
    rule: u32,
    number: u32,
}

#[repr(C)]
#[derive(Clone, Copy)]
struct TardisOperation {
    value: u64,
    read: u64,
    ts: u64,
    rank: u32,
    source_index: u32,
    addr: u64,
    kind: u8,
    source_core: u8,
}

extern "C" {
    fn tardis_check_operations(
        operations: *const TardisOperation, len: usize, ends: *const usize, cores: usize, out: &mut TardisVerdict,
    ) -> u8;
}

const INITIAL: u8 = 255;

fn check(cores: &[&[TardisOperation]]) -> (u8, TardisVerdict) {
    let all = cores.concat();
    let ends: Vec<usize> = cores.iter().scan(0, |end, core| { *end += core.len(); Some(*end) }).collect();
    let mut told = TardisVerdict::default();
    let status = unsafe { tardis_check_operations(all.as_ptr(), all.len(), ends.as_ptr(), ends.len(), &mut told) };
    (status, told)
}

fn load(addr: u64, value: u64, ts: u64, source_core: u8, source_index: u32) -> TardisOperation {
    TardisOperation { value, read: 0, ts, rank: 0, source_index, addr, kind: 0, source_core }
}

fn store(addr: u64, value: u64, ts: u64) -> TardisOperation {
    TardisOperation { kind: 1, ..load(addr, value, ts, INITIAL, 0) }
}

fn main() {
    let core1 = [store(200, 9, 3), load(100, 7, 4, 0, 0)];
    println!("{:?}", check(&[&[store(100, 7, 1), load(200, 9, 5, 1, 0)], &core1]));
    println!("{:?}", check(&[&[store(100, 7, 1), load(200, 9, 2, 1, 0)], &core1]));
}

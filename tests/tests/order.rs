//! Compare is an order: among accepted compares of one length on the same image and table, swapping the operands negates the
//! result, and "not above 0" is transitive.

use cueledger_tests::library::{Exports, Library};
use cueledger_tests::model::Pointer;
use cueledger_tests::print;
use cueledger_tests::random::{fresh_seed, Random};
use cueledger_tests::store::{Answer, Call, Model, Store};

const SEED: u64 = 1;
const IMAGES: usize = 2_000;
const POINTERS: usize = 12;

/// Accepted pairs of different pointers by their order, -1, 0 and 1, and chains of two pairs that are not above 0.
#[derive(Default)]
struct Compared {
    orders: [u64; 3],
    chains: u64,
}

struct Lent {
    image: Vec<u8>,
    table: Vec<u64>,
    pointers: Vec<u64>,
}

/// Objects of few different bytes, so that runs are often alike at first, and pointers into them. In a third of the images a
/// header and an entry are damaged.
fn random_image(random: &mut Random) -> Lent {
    let slot_exponent = random.within(6, 9) as u32;
    let mut lent = Lent { image: vec![0; 512], table: vec![0; 48 * 4], pointers: Vec::new() };
    assert!(Model.call(&mut lent.image, &mut lent.table, Call::SetUp { slot_exponent }).accepted());
    let mut objects = Vec::new();
    for _ in 0..random.within(1, 6) {
        let size = random.within(1, 60) as u32;
        let answer = Model.call(&mut lent.image, &mut lent.table, Call::Allocate { size, type_number: 0 });
        if answer.accepted() {
            let at = Pointer::unpack(answer.values[0]).address as usize;
            let bytes = random.pick(&[&[0x7f, 0x80][..], &[0, 1, 0xff], &[0x41], &[0, 0x40, 0x7f, 0x80, 0xc0, 0xff]]);
            lent.image[at..at + size as usize].fill_with(|| random.pick(bytes));
            objects.push((answer.values[0], u64::from(size)));
        }
    }
    if random.percent(33) {
        let (object, _) = random.pick(&objects);
        let at = Pointer::unpack(object).address as usize;
        lent.image[at - 16 + random.below(16) as usize] = random.word() as u8;
        let entry = random.below(lent.table.len() as u64) as usize;
        lent.table[entry] = random.below(512);
    }
    // some are past the end of their object
    for _ in 0..POINTERS {
        let (object, size) = random.pick(&objects);
        lent.pointers.push(object + random.below(size + 2));
    }
    lent
}

/// All pairs and chains of the pointers; what is not as it should be.
fn in_order(store: &impl Store, lent: &mut Lent, length: u32, compared: &mut Compared) -> Result<(), String> {
    let Lent { image, table, pointers } = lent;
    let orders: Vec<Vec<Option<i64>>> = pointers
        .iter()
        .map(|&left| {
            let order = |&right: &u64| match store.call(image, table, Call::Compare { left, right, length }) {
                Answer { refusal: 0, values: [order, ..] } => Some(order as i64),
                _ => None,
            };
            pointers.iter().map(order).collect()
        })
        .collect();
    let all = 0..pointers.len();
    for (a, b) in all.clone().flat_map(|a| all.clone().map(move |b| (a, b))) {
        let Some(order) = orders[a][b] else { continue };
        if !(-1..=1).contains(&order) {
            return Err(format!("{a} and {b}: {order}"));
        }
        compared.orders[(order + 1) as usize] += u64::from(pointers[a] != pointers[b]);
        if orders[b][a] != Some(-order) {
            return Err(format!("{a} and {b}: {order}, swapped {:?}", orders[b][a]));
        }
        for c in all.clone().filter(|&c| order <= 0 && orders[b][c].is_some_and(|order| order <= 0)) {
            compared.chains += 1;
            if orders[a][c].is_none_or(|order| order > 0) {
                return Err(format!("{a}, {b} and {c}: {order}, {:?}, and {:?} from end to end", orders[b][c], orders[a][c]));
            }
        }
    }
    Ok(())
}

fn is_an_order(store: &impl Store, seed: u64) -> Result<Compared, String> {
    let mut random = Random::new(seed);
    let mut compared = Compared::default();
    for number in 0..IMAGES {
        let mut lent = random_image(&mut random);
        let length = random.within(1, 20) as u32;
        in_order(store, &mut lent, length, &mut compared).map_err(|what| format!("image {number} of seed {seed}, {length} bytes: {what}"))?;
    }
    Ok(compared)
}

fn passes(name: &str, store: &impl Store, seed: u64) {
    let Compared { orders, chains } = is_an_order(store, seed).unwrap_or_else(|what| panic!("{name}: {what}"));
    print(&format!("{name}, seed {seed}: accepted compares below, equal, above {orders:?}, chains {chains}"));
    assert!(orders.iter().all(|&count| count > 1_000) && chains > 10_000);
    assert_eq!(orders[0], orders[2]);
}

#[test]
fn model() {
    passes("model", &Model, SEED);
}

#[test]
fn exports() {
    passes("exports", &Exports, SEED);
    passes("exports, fresh", &Exports, fresh_seed());
}

#[test]
fn wrapper() {
    passes("wrapper", &Library, SEED);
}

/// What is made of the first bytes that differ.
type Order = fn(u8, u8) -> i64;

struct By(Order);

impl Store for By {
    fn call(&self, image: &mut [u8], table: &mut [u64], call: Call<u64>) -> Answer {
        let answer = Model.call(image, table, call);
        match call {
            Call::Compare { left, right, length } if answer.accepted() => {
                let [left, right] = [left, right].map(|pointer| &image[Pointer::unpack(pointer).address as usize..][..length as usize]);
                let order = left.iter().zip(right).find(|(a, b)| a != b).map_or(0, |(&a, &b)| self.0(a, b));
                Answer::new(0, [order as u64])
            }
            _ => answer,
        }
    }
}

#[test]
fn faults_are_found() {
    assert!(is_an_order(&By(|a, b| if a < b { -1 } else { 1 }), SEED).is_ok());
    let faults: [(&str, Order); 4] = [
        ("a difference", |a, b| i64::from(a) - i64::from(b)),
        ("a difference of eight bits", |a, b| i64::from(a.wrapping_sub(b) as i8).signum()),
        ("whether they differ", |_, _| 1),
        ("0 for what differs by one", |a, b| if a.abs_diff(b) == 1 { 0 } else { i64::from(a).cmp(&i64::from(b)) as i64 }),
    ];
    for (name, by) in faults {
        let what = is_an_order(&By(by), SEED).err().unwrap_or_else(|| panic!("not found: {name}"));
        println!("{name}: {what}");
    }
}

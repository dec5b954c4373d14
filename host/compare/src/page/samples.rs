//! Pages written out by hand from document 02, which both the product and this crate's layout must give.

use super::call::{Call, OF_A_ROW};
use super::lines::{on_pages, pages};
use crate::house::Relation;
use crate::numbers::Numbers;
use crate::report::{test, Tally, Test};
use crate::verdict::batches::Batch;
use crate::verdict::damages::circuit_words;
use crate::verdict::listings::{Listing, Mark};

/// Comparisons of a sample: the product's, and this crate's layout.
const OF_A_SAMPLE: u64 = OF_A_ROW + 1;

pub fn tests() -> Vec<Test> {
    vec![test("pages written out by hand", 3 * OF_A_SAMPLE, by_hand)]
}

/// Bin row 0 of the house listing; the ends of every segment and of what lies between them, in the last
/// cycle of the largest batch; a row without terms.
fn by_hand(tally: &mut Tally) {
    let mut one = Batch::zero(1);
    one.put(320, 1);
    one.put(448, 0x0123_4567_89ab_cdef_fedc_ba98_7654_3210);
    one.put(449, u128::MAX);
    one.put(384, 1 << 127);
    let mut call = Call::of(1, &circuit_words(), one.words, Numbers::for_test(95));
    same(tally, &mut call, (Relation::Bin, 0), 0, FIRST_ROW);

    let mut largest = Batch::zero(256);
    for batch_column in 0..largest.z.len() {
        let low = (batch_column as u64).wrapping_mul(0x9e37_79b9_7f4a_7c15);
        largest.put(batch_column, 0xfedc_ba98_7654_3210 << 64 | u128::from(low));
    }
    let mut call = Call::of(256, &ENDS_WORDS, largest.words, Numbers::for_test(96));
    same(tally, &mut call, (Relation::Fld, 31), 255, ENDS);
    same(tally, &mut call, (Relation::Bin, 511), 255, NO_TERM);
}

fn same(tally: &mut Tally, call: &mut Call, mark: Mark, cycle: usize, lines: &str) {
    let right = on_pages(lines.trim_start().lines().map(str::to_string).collect());
    let listing = Listing::of_words(call.listing.words());
    let row = listing.rows.iter().find(|row| row.mark() == mark);
    let layout = pages(call.cpi, row.expect("the row"), cycle, call.batch.words());
    let place = || format!("{mark:?} in cycle {cycle}, this crate's layout");
    tally.same(place, layout.as_str(), right.as_str());
    call.same_pages(tally, mark, cycle, &right);
}

const FIRST_ROW: &str = "
bin       0
A     320 t1          0 00000000000000000000000000000001
A     448 carry       0 0123456789abcdeffedcba9876543210
B     384 t2          0 80000000000000000000000000000000
B     448 carry       0 0123456789abcdeffedcba9876543210
C     449 carry       0 ffffffffffffffffffffffffffffffff
C     448 carry       0 0123456789abcdeffedcba9876543210
";

const NO_TERM: &str = "
bin  131071
";

#[rustfmt::skip]
const ENDS_WORDS: [u32; 47] = [
    0xc000_01ff, 0xe000_001f,
    0x0003_f000, 0x0000_003f, 0x0000_9040, 0x0000_a07f, 0x2000_0080, 0x0000_70bf,
    0x0002_a0c0, 0x0000_10ff, 0x0003_f100, 0x0000_013f, 0x0000_9140, 0x0000_a17f,
    0x2000_0180, 0x0000_71bf, 0x0002_a1c0, 0x0000_11ff, 0x4003_f200, 0x4000_023f,
    0x4000_9240, 0x4000_a27f, 0x6000_0280, 0x4000_72bf, 0x4002_a2c0, 0x4000_12ff,
    0x4003_f300, 0x4000_030f, 0x4000_9310, 0x4000_a317, 0x6000_0318, 0x4000_731f,
    0x4002_a320, 0x4000_1327, 0x4003_f328, 0x4000_033f, 0x4000_9340, 0x4000_a37f,
    0xa000_0380, 0x8000_73bf, 0x8002_a3c0, 0x8000_13ff, 0x8003_f400, 0x8000_07ff,
    0x8000_9800, 0x8000_a801, 0xa000_0fff,
];

const ENDS: &str = "
fld    8191
A     255 rs1        63 fedcba987654321099423fc5cb3198eb
A   16383 rs1         0 fedcba98765432104036e6191fbac3eb
A   16639 rs2         9 fedcba987654321077b09f986a36d8eb
A   32767 rs2        10 fedcba98765432101ea545ebbec003eb
A   33023 rd         -- fedcba9876543210561eff6b093c18eb
A   49151 rd          7 fedcba9876543210fd13a5be5dc543eb
A   49407 load-val   42 fedcba9876543210348d5f3da84158eb
A   65535 load-val    1 fedcba9876543210db820590fcca83eb
A   65791 shift-out  63 fedcba987654321012fbbf10474698eb
A   81919 shift-out   0 fedcba9876543210b9f065639bcfc3eb
A   82175 t1          9 fedcba9876543210f16a1ee2e64bd8eb
A   98303 t1         10 fedcba9876543210985ec5363ad503eb
A   98559 t2         -- fedcba9876543210cfd87eb5855118eb
A  114687 t2          7 fedcba987654321076cd2508d9da43eb
A  114943 carry      42 fedcba9876543210ae46de88245658eb
A  131071 carry       1 fedcba9876543210553b84db78df83eb
B  131327 alu        63 fedcba98765432108cb53e5ac35b98eb
B  147455 alu         0 fedcba987654321033a9e4ae17e4c3eb
B  147711 shift-src   9 fedcba98765432106b239e2d6260d8eb
B  163839 shift-src  10 fedcba987654321012184480b6ea03eb
B  164095 store-old  -- fedcba98765432104991fe00016618eb
B  180223 store-old   7 fedcba9876543210f086a45355ef43eb
B  180479 store-src  42 fedcba987654321028005dd2a06b58eb
B  196607 store-src   1 fedcba9876543210cef50425f4f483eb
B  196863 flags      63 fedcba9876543210066ebda53f7098eb
B  200703 flags       0 fedcba987654321046909c1a9cb5d3eb
B  200959 off         9 fedcba98765432107e0a5599e731e8eb
B  202751 off        10 fedcba9876543210025e6814f0967beb
B  203007 ram-addr   -- fedcba987654321039d821943b1290eb
B  204799 ram-addr    7 fedcba9876543210be2c340f447723eb
B  205055 pc         42 fedcba9876543210f5a5ed8e8ef338eb
B  206847 pc          1 fedcba987654321079fa00099857cbeb
B  207103            63 fedcba9876543210b173b988e2d3e0eb
B  212991             0 fedcba9876543210ad6363f893f9c3eb
B  213247 fetch       9 fedcba9876543210e4dd1d77de75d8eb
B  229375 fetch      10 fedcba98765432108bd1c3cb32ff03eb
C  229631 eqaux      -- fedcba9876543210c34b7d4a7d7b18eb
C  245759 eqaux       7 fedcba98765432106a40239dd20443eb
C  246015            42 fedcba9876543210a1b9dd1d1c8058eb
C  262143             1 fedcba987654321048ae8370710983eb
C  262399 crossaux   63 fedcba987654321080283cefbb8598eb
C  524287 crossaux    0 fedcba98765432102f94809a615d83eb
C  524288             9 fedcba9876543210cdcbfa53e0a80000
C  524289            10 fedcba98765432106c03740d5ff27c15
C  526335            -- fedcba9876543210eb624c94b53e2beb
";

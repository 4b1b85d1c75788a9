//! Instructions of moves on one byte for a site's group (11/14) beside the same moves on rows, with S = N and with S = 64, and of
//! packing and unpacking.
use crate::one_call;
use calls::{Answer, Form, Mode, Port};
use tsorvenk_runs::case::Single;
use tsorvenk_runs::packed::Layout;
use tsorvenk_runs::port;
use tsorvenk_runs::rand::Rand;
use tsorvenk_runs::timing;

const D: usize = 2;
const MANY: usize = 64;

fn case(mode: Mode, form: Form, s: usize) -> Single {
    let mut rand = Rand::new(1);
    let panel = timing::panel(&mut rand, mode, form, D, s);
    timing::single(&mut rand, panel, mode.most_members(form))
}

fn pack_or_unpack(what: &str, layout: &Layout, port: &mut dyn Port) {
    let number = match what {
        "pack" => layout.pack(port).0,
        _ => layout.unpack(port).0,
    };
    assert_eq!(number, 0);
}

/// What is run so many times.
pub fn run(what: &str, mode: Mode, form: Form, times: usize) {
    let s = if what == "many" { MANY } else { mode.most_members(form) };
    let case = case(mode, form, s);
    let packed = case.packed().expect("a good call has rows");
    let layout = packed.layout();
    let mut port = port::linked().expect("the port is linked");
    let (mut rows, mut bytes) = (case.lent.clone(), packed.lent.clone());
    for _ in 0..times {
        let answer = match what {
            "rows" | "many" => {
                rows.spins.copy_from_slice(&case.lent.spins);
                port.step(case.step(&mut rows))
            }
            "bytes" => {
                bytes.columns.copy_from_slice(&packed.lent.columns);
                port.packed_step(packed.step(&mut bytes))
            }
            _ => {
                pack_or_unpack(what, &layout, port.as_mut());
                Answer::Moved
            }
        };
        assert_eq!(answer, Answer::Moved);
    }
}

pub fn all() {
    println!("one call on bytes beside the same on rows, all tests, n = 4096, D = {D}; packing and unpacking N rows");
    for mode in Mode::ALL {
        for form in Form::ALL {
            let [m, f] = [mode as usize, form as usize].map(|number| number.to_string());
            let [rows, many, bytes, pack, unpack] =
                ["rows", "many", "bytes", "pack", "unpack"].map(|what| one_call(&[what, &m, &f]));
            println!(
                "{:5} {:7} N = {} bytes {bytes:9.0} | S = N {rows:9.0}: {:.3} | S = {MANY} {many:9.0}: {:.3} | spared {:7.0} | pack {pack:7.0} unpack {unpack:7.0}",
                mode.name(),
                form.name(),
                mode.most_members(form),
                bytes / rows,
                bytes / many,
                rows - bytes,
            );
        }
    }
}

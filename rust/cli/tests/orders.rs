//! Orders of any stretches against the reference: what is permitted, which
//! pair is turned round, and what each run leaves.

use std::fmt::Write;

use gighull_cli::lesson::Lesson;
use gighull_cli::run::Session;
use reference::machine::Machine;
use reference::random::Random;
use reference::rearrangement::{Permission, permitted};
use reference::setting::FULL;
use reference::stretches::any_stretch;

/// A lesson with something in every register, these words and this order.
fn text(random: &mut Random, words: &[u32], order: &[usize]) -> String {
    let mut text = String::new();
    let mut content = |name: String, count: u32, below: u64| {
        let _ = write!(text, "{name} =");
        for _ in 0..count {
            let _ = write!(text, " {}", random.next_u64() % below);
        }
        text.push('\n');
    };
    for k in 0..32 {
        content(format!("z{k}.h"), 8, 1 << 16);
    }
    for k in 0..16 {
        content(format!("p{k}.b"), 16, 2);
    }
    content("zt0.s".to_string(), 16, 1 << 32);
    for k in 12..16 {
        content(format!("w{k}"), 1, 1 << 32);
    }
    for word in words {
        let _ = writeln!(text, "{word:08x}");
    }
    let order: Vec<String> = order.iter().map(usize::to_string).collect();
    let _ = writeln!(text, "order {}\nend", order.join(" "));
    text
}

/// The same machine for the reference.
fn to_reference(machine: &gighull::Machine) -> Machine {
    let scalars = machine.scalars;
    Machine {
        z: machine.z().to_vec(),
        p: machine.p().to_vec(),
        zt0: machine.zt0().to_vec(),
        w: [scalars.w12, scalars.w13, scalars.w14, scalars.w15],
        pc: scalars.pc,
        ..Machine::zero()
    }
}

#[test]
fn any_orders() {
    let mut random = Random::new(75);
    let mut found = [0; 2];
    let mut different = 0;
    for _ in 0..400 {
        let length = 2 + random.below(5) as usize;
        let words = any_stretch(&mut random, FULL, length);
        let mut order: Vec<usize> = (0..length).collect();
        for _ in 0..1 + random.below(4) {
            order.swap(
                random.below(length as u32) as usize,
                random.below(length as u32) as usize,
            );
        }
        let text = text(&mut random, &words, &order);
        let lesson = Lesson::parse("any.lesson", text.as_bytes()).unwrap();
        let session = Session::new(&lesson, 128);
        let ordered = &session.orders[0];
        let turned = match permitted(FULL, &words, &order) {
            Permission::Permitted => None,
            Permission::Swapped(early, late) => Some((early as u32, late as u32)),
            other => panic!("{other:?}"),
        };
        assert_eq!(ordered.permitted, Ok(turned.is_none()));
        assert_eq!(ordered.turned, turned, "{text}");
        let reordered: Vec<u32> = order.iter().map(|&position| words[position]).collect();
        for (ran, words) in [(&session.ran, &words), (&ordered.ran, &reordered)] {
            let mut machine = to_reference(&session.start);
            let outcome = reference::run::run(FULL, words, &mut machine);
            assert_eq!((outcome.number(), outcome.done), (0, length));
            assert_eq!((ran.refusal, ran.done), (None, length));
            assert!(to_reference(&ran.end) == machine, "{text}");
        }
        let alike = ordered.ran.end == session.ran.end;
        assert!(alike || turned.is_some(), "{text}");
        found[usize::from(turned.is_some())] += 1;
        different += usize::from(!alike);
    }
    assert!(found.iter().all(|&count| count > 50), "{found:?}");
    assert!(different > 50, "{different}");
}

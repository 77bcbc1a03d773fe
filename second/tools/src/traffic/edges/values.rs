//! Values at the edges of their rules, set by the controller and by the port.

use port::table::{Parameter, Rule, SetBy, LIST_MAX, TABLE};

use super::script::Edges;

/// Numbers that are small, or small in their low octets alone.
const NUMBERS: [u32; 19] = [
    0,
    1,
    63,
    64,
    65,
    0x80,
    0xFF,
    0x100,
    0x140,
    0x1_0000,
    0x1_0040,
    0x100_0000,
    0x100_0040,
    0x4000_0000,
    999_999_998,
    999_999_999,
    1_000_000_000,
    0x3B9A_CB00,
    u32::MAX,
];
/// Names that are none of the table, some of them in one octet alone.
const UNLISTED: [u16; 8] = [
    0x0000, 0x0002, 0x0009, 0x0103, 0x8000, 0x8003, 0x80A1, 0xFFFF,
];

pub fn add(edges: &mut Edges) {
    edges.fresh();
    for parameter in &TABLE {
        let values = of(parameter);
        // Several commands, so that none is too long.
        for some in values.chunks(16) {
            edges.command(|operations| {
                for value in some {
                    operations.set(parameter.name, value);
                }
                operations.read(parameter.name);
            });
        }
        for value in values.iter().chain([&vec![]]) {
            edges.local(parameter.name, value);
        }
        edges.show();
    }
    edges.command(|operations| lists(|list| operations.set(0x0006, list)));
    for name in UNLISTED {
        edges.local(name, &[1]);
        edges.command(|operations| {
            operations.set(name, &[1]);
            operations.set(name, &[]);
            operations.read(name);
            operations.subscribe(name);
            operations.unsubscribe(name);
        });
    }
}

/// Values of a parameter around its lengths and its rule.
fn of(parameter: &Parameter) -> Vec<Vec<u8>> {
    let Parameter { least, most, .. } = *parameter;
    let mut values: Vec<Vec<u8>> = match parameter.rule {
        Rule::Octet(..) => [0, 1, 2, 3, 4, 5, 6, 7, 8, 0x80, 0xFF]
            .map(|octet| vec![octet])
            .into(),
        Rule::LastFour(..) => {
            let front = vec![0; most - 4];
            let ending = |number: u32| [&front[..], &number.to_be_bytes()].concat();
            NUMBERS.map(ending).into()
        }
        Rule::List => vec![vec![0, 5, 0, 0, 0, 0, 1]],
        Rule::Free | Rule::Block => Vec::new(),
    };
    let fill = values.get(1).and_then(|value| value.last()).copied();
    let fill = fill.unwrap_or(7);
    // A length that cannot be taken back stands last.
    let lengths = [
        3,
        most - 1,
        most,
        most + 1,
        least + 1,
        least.max(1) - 1,
        least,
    ];
    values.extend(lengths.map(|length| vec![fill; length]));
    values.retain(|value| value.len() <= 256);
    let stays = parameter.set_by == SetBy::Port || parameter.name == TABLE[LIST_MAX].name;
    if !stays {
        values.dedup();
    }
    values
}

/// Lists of three entries of which one is a step off the rule, or just is not.
fn lists(mut take: impl FnMut(&[u8])) {
    for at in 0..3 {
        let mut with = |place: usize, octets: &[u8]| {
            let mut list = [1, 5, 0xA5, 0, 0, 0, 9].repeat(3);
            list[7 * at + place..7 * at + place + octets.len()].copy_from_slice(octets);
            take(&list);
        };
        for operation in [2, 3, 0xFF] {
            with(0, &[operation]);
        }
        for five in [4, 6] {
            with(1, &[five]);
        }
        for interval in [0_u32, 1, 0x100, 0x1_0000, 0x100_0000] {
            with(3, &interval.to_be_bytes());
        }
    }
    for length in [6, 8, 13, 20] {
        take(&[1, 5, 0xA5, 0, 0, 0, 9].repeat(3)[..length]);
    }
    take(&[0, 5, 0xFF, 0xFF, 0xFF, 0xFF, 0xFF]);
}

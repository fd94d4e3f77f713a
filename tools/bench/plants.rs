//! Large manifests for the benchmarks, from fixed seeds.

/// Numbers from a fixed seed.
struct Dice(u64);

impl Dice {
    fn below(&mut self, n: usize) -> usize {
        self.0 = self.0.wrapping_mul(6364136223846793005).wrapping_add(1442695040888963407);
        (self.0 >> 33) as usize % n
    }
    fn shuffle<T>(&mut self, things: &mut [T]) {
        (1..things.len()).for_each(|i| things.swap(i, self.below(i + 1)));
    }
}

/// The fields of the wire.
#[derive(Default)]
struct Wire(Vec<u8>);

impl Wire {
    fn tag(&mut self, n: u8) {
        self.0.push(n);
    }
    fn u32(&mut self, n: usize) {
        self.0.extend((n as u32).to_le_bytes());
    }
    fn u64(&mut self, n: usize) {
        self.0.extend(n.to_le_bytes());
    }
    fn text(&mut self, t: &str) {
        self.u32(t.len());
        self.0.extend(t.as_bytes());
    }
    fn block(&mut self, name: &str) {
        self.tag(0);
        self.text(name);
    }
    fn port(&mut self, name: &str, p: Port) {
        self.block(name);
        self.tag(p.out as u8);
        self.u32(p.number);
    }
    fn list<T>(&mut self, entries: &[T], mut write: impl FnMut(&mut Wire, &T)) {
        self.u32(entries.len());
        entries.iter().for_each(|e| write(self, e));
    }
}

/// A connector; they ascend as their keys do, since blocks are numbered by their keys and have few ports.
#[derive(Clone, Copy, PartialEq, PartialOrd, Eq, Ord)]
struct Port {
    block: usize,
    out: bool,
    number: usize,
}

/// What a plant is like: letters put before and after each block's name, and whether schedule and connector order are
/// shuffled; else they are in the order of the keys.
#[derive(Clone, Copy, Default)]
pub struct Shape {
    pub before: usize,
    pub after: usize,
    pub shuffled: bool,
}

/// Block names of 10 to 40 bytes and the shape's, all different, in the order of their keys: by length first.
fn names(count: usize, shape: Shape, dice: &mut Dice) -> Vec<String> {
    let place = "plant.building.storey.zone.coils";
    let (before, after) = ("x".repeat(shape.before), "x".repeat(shape.after));
    let name = |i| format!("{before}{}/{i:07}{after}", &place[..2 + dice.below(31)]);
    let mut names: Vec<String> = (0..count).map(name).collect();
    names.sort_by(|a, b| (a.len(), a).cmp(&(b.len(), b)));
    names
}

const CLASSES: [&str; 4] = ["CDL.Reals.Add", "CDL.Reals.PID", "CDL.Logical.Switch", "CDL.Discrete.UnitDelay"];

/// A plant of so many blocks: what follows from the names and a few throws of the dice, such that the Rust accepts it.
struct Plant {
    names: Vec<String>,
    words: Vec<usize>,
    params: Vec<bool>,
    ports: Vec<Port>,
    links: Vec<(Port, Port)>,
    outside: Vec<Port>,
    schedule: Vec<usize>,
    order: Vec<Port>,
}

impl Plant {
    fn new(count: usize, shape: Shape) -> Plant {
        let dice = &mut Dice(count as u64);
        let names = names(count, shape, dice);
        let (mut words, mut params, mut ports, mut links, mut outside) = (vec![], vec![], vec![], vec![], vec![]);
        for block in 0..count {
            words.push([0, 0, 1, 2, 4][dice.below(5)]);
            params.push(block == 0 || dice.below(5) < 3);
            for number in 0..1 + dice.below(3) {
                let input = Port { block, out: false, number };
                ports.push(input);
                match block > 0 && dice.below(8) > 0 {
                    true => links.push((Port { block: dice.below(block), out: true, number: 0 }, input)),
                    false => outside.push(input),
                }
            }
            ports.push(Port { block, out: true, number: 0 });
        }
        links.sort();
        let (mut schedule, mut order): (Vec<usize>, _) = ((0..count).collect(), ports.clone());
        if shape.shuffled {
            dice.shuffle(&mut schedule);
            dice.shuffle(&mut order);
        }
        Plant { names, words, params, ports, links, outside, schedule, order }
    }

    fn path(&self, p: Port) -> String {
        format!("{}.{}{}", self.names[p.block], if p.out { "y" } else { "u" }, p.number)
    }

    fn block(&self, w: &mut Wire, i: usize) {
        w.block(&self.names[i]);
        w.text(CLASSES[i % 4]);
        w.tag((self.words[i] > 0) as u8);
        w.u32((self.words[i] > 0) as usize);
        w.u64(self.words[i]);
        w.u32(if self.params[i] { 2 } else { 0 });
        if self.params[i] {
            w.text("gain");
            w.tag(0);
            w.u64(i);
            w.text("mode");
            w.tag(4);
            w.text("Types.Mode");
            w.u32(1 + i % 2);
        }
        let (from, to) = (self.ports.partition_point(|p| p.block < i), self.ports.partition_point(|p| p.block <= i));
        let port = |w: &mut Wire, p: &Port| w.port(&self.names[i], *p);
        w.list(&self.ports[from..to - 1], port);
        w.list(&self.ports[to - 1..to], port);
    }

    fn connector(&self, w: &mut Wire, p: Port) {
        w.port(&self.names[p.block], p);
        w.text(&self.path(p));
        w.u32(p.number);
        w.tag(0);
        let unit = (p.block + p.number) % 3 == 0;
        w.tag(unit as u8);
        if unit {
            w.text("K");
        }
        w.tag(0);
    }

    fn bytes(&self) -> Vec<u8> {
        let w = &mut Wire::default();
        let blocks: Vec<usize> = (0..self.names.len()).collect();
        let port = |w: &mut Wire, p: Port| w.port(&self.names[p.block], p);
        w.tag(0);
        w.u32(1);
        w.text("Types.Mode");
        w.list(&["off", "on"], |w, m| w.text(m));
        w.list(&blocks, |w, i| self.block(w, *i));
        w.list(&self.ports, |w, p| self.connector(w, *p));
        w.list(&self.links, |w, l| [l.0, l.1].into_iter().for_each(|p| port(w, p)));
        w.list(&self.schedule, |w, i| w.block(&self.names[*i]));
        w.list(&self.order, |w, p| port(w, *p));
        w.list(&self.ports, |w, p| [*p, *p].into_iter().for_each(|p| port(w, p)));
        self.slots(w);
        w.list(&self.outside, |w, p| port(w, *p));
        w.list(&blocks[..blocks.len() / 10], |w, i| {
            w.text(&format!("out{i}"));
            port(w, Port { block: *i, out: true, number: 0 });
        });
        let mut paths: Vec<String> = self.outside.iter().map(|p| self.path(*p)).collect();
        paths.sort();
        w.list(&paths, |w, p| {
            w.text(p);
            [0, 0, 0].into_iter().for_each(|t| w.tag(t));
        });
        std::mem::take(&mut w.0)
    }

    /// A value for each connector, all state words, no flags.
    fn tail(&self) -> Vec<u8> {
        let w = &mut Wire::default();
        w.list(&self.ports, |w, p| {
            w.port(&self.names[p.block], *p);
            w.tag(0);
            w.u64(p.block);
        });
        let words = self.words.iter().sum();
        w.u64(words);
        (0..words).for_each(|i| w.u64(i));
        w.u32(0);
        std::mem::take(&mut w.0)
    }

    fn slots(&self, w: &mut Wire) {
        let stateful: Vec<usize> = (0..self.words.len()).filter(|i| self.words[*i] > 0).collect();
        let mut at = 0;
        w.list(&stateful, |w, i| {
            w.block(&self.names[*i]);
            w.u64(at);
            w.u64(self.words[*i]);
            at += self.words[*i];
        });
    }
}

fn sized(size: usize, shape: Shape) -> Plant {
    let each = Plant::new(10_000, shape).bytes().len() as f64 / 10_000.0;
    Plant::new((size as f64 / each * 0.995) as usize, shape)
}

/// A plant of about so many bytes, at most.
pub fn plant(size: usize, shape: Shape) -> Vec<u8> {
    sized(size, shape).bytes()
}

/// The same with its tail.
pub fn plant_and_tail(size: usize) -> (Vec<u8>, Vec<u8>) {
    let plant = sized(size, Shape::default());
    (plant.bytes(), plant.tail())
}

/// The order in which a class lists its members.
pub enum Order {
    Sorted,
    Shuffled,
    /// Those of even numbers, then those of odd ones.
    TwoRuns,
    Falling,
}

/// One class of so many members, and a block that names it. `ends` stands in front of and behind the number of each: where it has eight bytes,
/// the first and the last eight of all members are alike, and a sift by these leaves them all to the sort.
pub fn class(count: usize, order: Order, ends: &str) -> Vec<u8> {
    let mut members: Vec<usize> = (0..count).collect();
    match order {
        Order::Sorted => {}
        Order::Shuffled => Dice(1).shuffle(&mut members),
        Order::TwoRuns => members.sort_by_key(|m| (m % 2, *m)),
        Order::Falling => members.reverse(),
    }
    let w = &mut Wire::default();
    w.tag(0);
    w.u32(1);
    w.text("Types.Large");
    w.list(&members, |w, m| w.text(&format!("m{ends}{m:07}{ends}")));
    w.list(&["b"], |w, b| {
        w.block(b);
        w.text("CDL.Reals.Add");
        w.tag(0);
        w.u32(0);
        w.u64(0);
        w.u32(1);
        w.text("p");
        w.tag(4);
        w.text("Types.Large");
        [1, 0, 0].into_iter().for_each(|n| w.u32(n));
    });
    [0, 0, 1].into_iter().for_each(|n| w.u32(n));
    w.block("b");
    [0; 6].into_iter().for_each(|n| w.u32(n));
    std::mem::take(&mut w.0)
}

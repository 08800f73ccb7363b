//! The same registry in std's maps: takes the objects on standard input, all but as many of the last ones as a word says, judges
//! these as the registry would, each by its key, its closest cover and the maintainers that are named there, and prints how many
//! would be added, changed, and refused since they are named, and the microseconds of judging.
use std::collections::BTreeMap;
use std::io::Read;
use std::net::Ipv4Addr;
use std::time::Instant;

/// An address and a length.
type Prefix = (u32, u8);

#[derive(Clone, PartialEq, Eq, PartialOrd, Ord)]
enum Key {
    Maintainer(String),
    Block,
    Number(u32),
    Inetnum(Prefix),
    Route(Prefix, u32),
}

struct Object {
    key: Key,
    maintainers: Vec<String>,
    auth: Option<String>,
    /// A text of its own for each object, as a registry has one to show.
    text: String,
}

fn prefix(text: &str) -> Prefix {
    let (address, length) = text.split_once('/').unwrap();
    (u32::from(address.parse::<Ipv4Addr>().unwrap()), length.parse().unwrap())
}

fn number(text: &str) -> u32 {
    text.strip_prefix("AS").unwrap().parse().unwrap()
}

fn read(paragraph: &str) -> Object {
    let pairs: Vec<(&str, &str)> =
        paragraph.lines().map(|line| line.split_once(':').unwrap()).map(|(name, value)| (name, value.trim())).collect();
    let value = |wanted: &str| pairs.iter().find(|(name, _)| *name == wanted).map(|(_, value)| *value);
    let (class, text) = pairs[0];
    let key = match class {
        "mntner" => Key::Maintainer(text.to_ascii_lowercase()),
        "as-block" => Key::Block,
        "aut-num" => Key::Number(number(text)),
        "inetnum" => Key::Inetnum(prefix(text)),
        _ => Key::Route(prefix(text), number(value("origin").unwrap())),
    };
    Object {
        key,
        maintainers: value("mnt-by").unwrap().split(", ").map(str::to_ascii_lowercase).collect(),
        auth: value("auth").map(str::to_string),
        text: paragraph.to_string(),
    }
}

#[derive(Default)]
struct Registry {
    objects: BTreeMap<Key, Object>,
    /// How many objects name a maintainer, beside itself.
    named: BTreeMap<String, usize>,
}

impl Registry {
    fn add(&mut self, object: Object) {
        for name in &object.maintainers {
            if object.key != Key::Maintainer(name.clone()) {
                *self.named.entry(name.clone()).or_default() += 1;
            }
        }
        self.objects.insert(object.key.clone(), object);
    }

    fn passes(&self, object: &Object) -> bool {
        object.maintainers.iter().any(|name| {
            let found = self.objects.get(&Key::Maintainer(name.clone()));
            found.is_some_and(|maintainer| maintainer.auth.as_deref().is_some_and(|auth| auth != "NONE"))
        })
    }

    fn closest(&self, (address, length): Prefix, key: impl Fn(Prefix) -> Key) -> Option<&Object> {
        (0..=length).rev().find_map(|length| {
            let bits = if length == 0 { 0 } else { address & (u32::MAX << (32 - length)) };
            self.objects.get(&key((bits, length)))
        })
    }

    /// Whether the space that covers the prefix lets an object in: the closest route of the prefix's own origin, or the inetnum.
    fn is_let_in(&self, prefix: Prefix, origin: Option<u32>) -> bool {
        let route = origin.and_then(|origin| self.closest(prefix, |prefix| Key::Route(prefix, origin)));
        route.or_else(|| self.closest(prefix, Key::Inetnum)).is_some_and(|closest| self.passes(closest))
    }
}

#[derive(Clone, Copy, PartialEq)]
enum Verdict {
    Add,
    Change,
    Named,
    Refuse,
}

fn judge(registry: &Registry, item: &Object) -> Verdict {
    if let Key::Maintainer(name) = &item.key {
        let stored = registry.objects.get(&item.key);
        return match stored.is_some_and(|stored| registry.passes(stored)) && registry.named.get(name).is_some_and(|&count| count > 0) {
            true => Verdict::Named,
            false => Verdict::Refuse,
        };
    }
    if let Some(stored) = registry.objects.get(&item.key) {
        return if stored.text != item.text && registry.passes(stored) { Verdict::Change } else { Verdict::Refuse };
    }
    let let_in = match item.key {
        Key::Inetnum(prefix) => registry.is_let_in(prefix, None),
        Key::Route(prefix, origin) => {
            let holder = registry.objects.get(&Key::Number(origin));
            holder.is_some_and(|holder| registry.passes(holder)) && registry.is_let_in(prefix, Some(origin))
        }
        _ => false,
    };
    if let_in && registry.passes(item) { Verdict::Add } else { Verdict::Refuse }
}

fn main() {
    let mut text = String::new();
    std::io::stdin().read_to_string(&mut text).unwrap();
    let mut objects: Vec<Object> = text.trim_end().split("\n\n").map(read).collect();
    let count: usize = std::env::args().nth(1).map_or(0, |word| word.parse().unwrap());
    let items = objects.split_off(objects.len() - count);
    let mut registry = Registry::default();
    for object in objects {
        registry.add(object);
    }
    let start = Instant::now();
    let found: Vec<Verdict> = items.iter().map(|item| judge(&registry, item)).collect();
    let judging = start.elapsed().as_micros();
    let counted = |wanted: Verdict| found.iter().filter(|verdict| **verdict == wanted).count();
    println!("{} {} {} {} {judging}", registry.objects.len(), counted(Verdict::Add), counted(Verdict::Change), counted(Verdict::Named));
}

//! Fragments in memory: the closure of the first of some files, its targets, its order of initialization, and its
//! sections, filled and relocated.
#![allow(dead_code)] // each program uses a part

use crate::container::{Container, Loader};
use crate::fill;
use crate::machine::{Addresses, Machine};
use crate::names::NameMap;

/// A fragment of the closure, by its place in the closure order.
pub struct Fragment<'a> {
    pub name: &'a str,
    pub container: Container<'a>,
    pub loader: Loader<'a>,
    /// For each library its fragment, unless it is absent.
    pub bound: Vec<Option<u32>>,
    /// What the imports stand for.
    targets: Vec<Target>,
    /// The places of the exports; made when one is first looked for.
    exports: Option<NameMap<'a>>,
}

#[derive(Clone, Copy)]
enum Target {
    Absolute(u32),
    Inside {
        fragment: u16,
        section: u16,
        value: u32,
    },
}

/// A section in memory.
pub struct Instance {
    pub address: u32,
    pub bytes: Vec<u8>,
}

pub struct Loaded<'a> {
    pub fragments: Vec<Fragment<'a>>,
    pub initialization: Vec<usize>,
    pub memory: Vec<Vec<Instance>>,
}

pub fn load<'a>(files: &'a [(&'a str, Vec<u8>)]) -> Option<Loaded<'a>> {
    let mut closure = Closure::new(files);
    let first = closure.place(files.first()?.0)?;
    closure.walk(first)?;
    let mut fragments = closure.in_order();
    let most: usize = fragments
        .iter()
        .map(|fragment| fragment.loader.export_count)
        .sum();
    for place in 0..fragments.len() {
        let owners = fragments[place].loader.owners()?;
        let targets: Option<Vec<_>> = (0..owners.len())
            .map(|import| target(&mut fragments, most, (place, import, owners[import])))
            .collect();
        fragments[place].targets = targets?;
    }
    let order: Vec<usize> = (0..fragments.len()).collect();
    let initialization = initialization(&fragments, &order)?;
    let mut memory = place_sections(&fragments)?;
    for (fragment, instances) in fragments.iter().zip(&mut memory) {
        for (section, instance) in fragment.container.sections.iter().zip(instances) {
            instance.bytes = fill::memory(section)?;
        }
    }
    relocate(&fragments, &mut memory)?;
    Some(Loaded {
        fragments,
        initialization,
        memory,
    })
}

/// The fragments that were met, by their places in the store.
struct Closure<'a> {
    files: &'a [(&'a str, Vec<u8>)],
    places: NameMap<'a>,
    met: Vec<Option<Fragment<'a>>>,
    order: Vec<usize>,
}

impl<'a> Closure<'a> {
    fn new(files: &'a [(&'a str, Vec<u8>)]) -> Self {
        let mut places = NameMap::default();
        for ((name, _), place) in files.iter().zip(0..) {
            places.entry(name.as_bytes()).or_insert(place);
        }
        Closure {
            files,
            places,
            met: files.iter().map(|_| None).collect(),
            order: Vec::new(),
        }
    }

    fn place(&self, name: &str) -> Option<usize> {
        self.places
            .get(name.as_bytes())
            .map(|place| *place as usize)
    }

    fn read(&mut self, place: usize) -> Option<()> {
        let (name, bytes) = &self.files[place];
        let container = Container::read(bytes)?;
        let loader = container.loader()?;
        let bound = Vec::with_capacity(loader.libraries.len());
        self.met[place] = Some(Fragment {
            name,
            container,
            loader,
            bound,
            targets: Vec::new(),
            exports: None,
        });
        Some(())
    }

    fn walk(&mut self, place: usize) -> Option<()> {
        if self.met[place].is_none() {
            self.read(place)?;
        }
        let count = self.met[place].as_ref()?.loader.libraries.len();
        for entry in 0..count {
            let library = &self.met[place].as_ref()?.loader.libraries[entry];
            let (is_weak, oldimp, current) =
                (library.options & 0x40 != 0, library.oldimp, library.current);
            let mut found = self.places.get(library.name).copied();
            if let Some(other) = found {
                let other = other as usize;
                let is_new = self.met[other].is_none();
                if is_new {
                    self.read(other)?;
                }
                let container = &self.met[other].as_ref()?.container;
                if !fits(container, oldimp, current) {
                    self.met[other] = self.met[other].take().filter(|_| !is_new);
                    found = None;
                } else if is_new {
                    self.walk(other)?;
                }
            }
            if found.is_none() && !is_weak {
                return None;
            }
            self.met[place].as_mut()?.bound.push(found);
        }
        self.order.push(place);
        Some(())
    }

    /// The fragments in closure order, with libraries bound to places in it.
    fn in_order(mut self) -> Vec<Fragment<'a>> {
        let mut places = vec![0; self.files.len()];
        for (at, place) in self.order.iter().enumerate() {
            places[*place] = at as u32;
        }
        let mut fragments: Vec<Fragment> = self
            .order
            .iter()
            .filter_map(|place| self.met[*place].take())
            .collect();
        for bound in fragments
            .iter_mut()
            .flat_map(|fragment| &mut fragment.bound)
            .flatten()
        {
            *bound = places[*bound as usize];
        }
        fragments
    }
}

fn fits(found: &Container, oldimp: u32, current: u32) -> bool {
    match found.current.cmp(&current) {
        std::cmp::Ordering::Equal => true,
        std::cmp::Ordering::Less => found.current >= oldimp,
        std::cmp::Ordering::Greater => current >= found.olddef,
    }
}

/// What an import of a fragment's library stands for, through exports that pass on an import: `most` at most.
fn target(fragments: &mut [Fragment], most: usize, from: (usize, usize, u32)) -> Option<Target> {
    let (mut place, mut import, mut owner) = from;
    for _ in 0..=most {
        let symbol = fragments[place].loader.import(import)?;
        let Some(library) = fragments[place].bound[owner as usize] else {
            return Some(Target::Absolute(0));
        };
        let library = library as usize;
        let Some(found) = find(&mut fragments[library], symbol.name)? else {
            return symbol.is_weak.then_some(Target::Absolute(0));
        };
        let export = fragments[library].loader.export(found as usize)?;
        match export.section {
            -2 => return Some(Target::Absolute(export.value)),
            -3 => (place, import) = (library, export.value as usize),
            section => {
                let (fragment, section) = (library as u16, section as u16);
                return Some(Target::Inside {
                    fragment,
                    section,
                    value: export.value,
                });
            }
        }
        let libraries = &fragments[place].loader.libraries;
        owner = libraries
            .iter()
            .position(|library| (import as u32).wrapping_sub(library.first) < library.count)?
            as u32;
    }
    None
}

/// The first export of a name.
fn find(fragment: &mut Fragment, name: &[u8]) -> Option<Option<u32>> {
    if fragment.exports.is_none() {
        let count = fragment.loader.export_count;
        let mut exports = NameMap::with_capacity_and_hasher(count, Default::default());
        for place in 0..count {
            exports
                .entry(fragment.loader.export(place)?.name)
                .or_insert(place as u32);
        }
        fragment.exports = Some(exports);
    }
    Some(fragment.exports.as_ref()?.get(name).copied())
}

/// Again and again the first fragment of an order whose libraries that come before were taken.
pub fn initialization(fragments: &[Fragment], order: &[usize]) -> Option<Vec<usize>> {
    let mut taken = vec![false; fragments.len()];
    let mut initialized = Vec::with_capacity(order.len());
    while initialized.len() < order.len() {
        let next = order.iter().copied().find(|place| {
            let fragment = &fragments[*place];
            let mut libraries = fragment.loader.libraries.iter().zip(&fragment.bound);
            !taken[*place]
                && libraries.all(|(library, bound)| {
                    library.options & 0x80 == 0 || bound.is_none_or(|b| taken[b as usize])
                })
        });
        taken[next?] = true;
        initialized.extend(next);
    }
    Some(initialized)
}

/// Each section in turn at the lowest address that is free and aligned.
fn place_sections(fragments: &[Fragment]) -> Option<Vec<Vec<Instance>>> {
    let mut used: Vec<(u64, u64)> = Vec::new();
    let mut memory = Vec::new();
    for Fragment { container, .. } in fragments {
        let mut instances = Vec::new();
        for section in &container.sections[..container.instantiated] {
            let unit = 1u64 << section.align.max(4);
            let size = u64::from(section.total.max(1)).next_multiple_of(16);
            let mut address = 0x1_0000u64.next_multiple_of(unit);
            let gap = used.iter().position(|(start, end)| {
                let fits = address + size <= *start;
                if !fits {
                    address = address.max(end.next_multiple_of(unit));
                }
                fits
            });
            used.insert(gap.unwrap_or(used.len()), (address, address + size));
            let address = Some(address).filter(|address| address + size <= 0x1000_0000)? as u32;
            instances.push(Instance {
                address,
                bytes: Vec::new(),
            });
        }
        memory.push(instances);
    }
    Some(memory)
}

/// The addresses that a fragment's programs add.
struct Known<'a> {
    sections: &'a [u32],
    targets: &'a [Target],
    all: &'a [Vec<u32>],
}

impl Addresses for Known<'_> {
    fn section(&self, number: u32) -> Option<u32> {
        self.sections.get(number as usize).copied()
    }

    fn import(&self, number: u32) -> Option<u32> {
        Some(match *self.targets.get(number as usize)? {
            Target::Absolute(address) => address,
            Target::Inside {
                fragment,
                section,
                value,
            } => self.all[usize::from(fragment)]
                .get(usize::from(section))?
                .wrapping_add(value),
        })
    }
}

fn relocate(fragments: &[Fragment], memory: &mut [Vec<Instance>]) -> Option<()> {
    let addresses =
        |instances: &Vec<Instance>| instances.iter().map(|instance| instance.address).collect();
    let all: Vec<Vec<u32>> = memory.iter().map(addresses).collect();
    for (place, fragment) in fragments.iter().enumerate() {
        let known = Known {
            sections: &all[place],
            targets: &fragment.targets,
            all: &all,
        };
        for (section, program) in &fragment.loader.programs {
            let bytes = &mut memory[place].get_mut(usize::from(*section))?.bytes;
            Machine::new(bytes, &known).run(program)?;
        }
    }
    Some(())
}

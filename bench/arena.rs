//! The walks of the benchmark over a plain arena: numbered nodes under versions, linked lists of children in two vectors a
//! kind, and indices that nobody checks. It shows what the layout itself allows.
use std::io::{self, BufRead};

const OPERATION: usize = 0;
const REGION: usize = 1;
const BLOCK: usize = 2;

/// A number in a vector, plus one, so that 0 is none.
type Link = u32;

#[derive(Clone, Copy, Default)]
struct Child {
    before: Link,
    after: Link,
    over: Link,
}

#[derive(Clone, Copy, Default)]
struct List {
    first: Link,
    last: Link,
}

/// All nodes of one kind: their versions, their places among their siblings, and their own lists of children.
#[derive(Default)]
struct Nodes {
    versions: Vec<u32>,
    children: Vec<Child>,
    lists: Vec<List>,
}

#[derive(Clone, Copy, PartialEq)]
enum Node {
    Operation(u32, u32),
    Region(u32, u32),
    Block(u32, u32),
}

#[derive(Default)]
struct Arena {
    kinds: [Nodes; 3],
}

impl Arena {
    fn add(&mut self, kind: usize, over: Option<u32>) -> u32 {
        let number = self.kinds[kind].versions.len() as u32;
        let mut child = Child::default();
        if let Some(parent) = over {
            let list = &mut self.kinds[(kind + 2) % 3].lists[parent as usize];
            child.before = list.last;
            child.over = parent + 1;
            if list.last == 0 {
                list.first = number + 1;
            }
            list.last = number + 1;
            if child.before != 0 {
                self.kinds[kind].children[child.before as usize - 1].after = number + 1;
            }
        }
        let nodes = &mut self.kinds[kind];
        nodes.versions.push(1);
        nodes.children.push(child);
        nodes.lists.push(List::default());
        number
    }

    /// An operation with a region and a block: the number of each is the same.
    fn add_operation(&mut self, block: Option<u32>) -> u32 {
        let operation = self.add(OPERATION, block);
        let region = self.add(REGION, Some(operation));
        self.add(BLOCK, Some(region))
    }

    #[inline(always)]
    fn child<const KIND: usize>(&self, number: u32) -> Child {
        // SAFETY: each number comes from a link, and links name nodes that are there.
        unsafe { *self.kinds[KIND].children.get_unchecked(number as usize) }
    }

    #[inline(always)]
    fn list<const KIND: usize>(&self, number: u32) -> List {
        // SAFETY: as above.
        unsafe { *self.kinds[KIND].lists.get_unchecked(number as usize) }
    }

    #[inline(always)]
    fn node<const KIND: usize>(&self, link: Link) -> Option<Node> {
        if link == 0 {
            return None;
        }
        // SAFETY: as above.
        let version = unsafe { *self.kinds[KIND].versions.get_unchecked(link as usize - 1) };
        Some(match KIND {
            OPERATION => Node::Operation(link - 1, version),
            REGION => Node::Region(link - 1, version),
            _ => Node::Block(link - 1, version),
        })
    }

    #[inline(always)]
    fn first(&self, node: Node) -> Option<Node> {
        match node {
            Node::Operation(number, _) => self.node::<REGION>(self.list::<OPERATION>(number).first),
            Node::Region(number, _) => self.node::<BLOCK>(self.list::<REGION>(number).first),
            Node::Block(number, _) => self.node::<OPERATION>(self.list::<BLOCK>(number).first),
        }
    }

    #[inline(always)]
    fn after(&self, node: Node) -> Option<Node> {
        match node {
            Node::Operation(number, _) => {
                self.node::<OPERATION>(self.child::<OPERATION>(number).after)
            }
            Node::Region(number, _) => self.node::<REGION>(self.child::<REGION>(number).after),
            Node::Block(number, _) => self.node::<BLOCK>(self.child::<BLOCK>(number).after),
        }
    }

    #[inline(always)]
    fn over(&self, node: Node) -> Option<Node> {
        match node {
            Node::Operation(number, _) => self.node::<BLOCK>(self.child::<OPERATION>(number).over),
            Node::Region(number, _) => self.node::<OPERATION>(self.child::<REGION>(number).over),
            Node::Block(number, _) => self.node::<REGION>(self.child::<BLOCK>(number).over),
        }
    }

    /// Calls back at each node under a root, before what stands below it.
    #[inline(never)]
    fn walk<F: FnMut(Node)>(&self, root: Node, mut visit: F) {
        let mut at = root;
        loop {
            visit(at);
            if let Some(below) = self.first(at) {
                at = below;
                continue;
            }
            loop {
                if at == root {
                    return;
                }
                if let Some(next) = self.after(at) {
                    at = next;
                    break;
                }
                match self.over(at) {
                    Some(over) => at = over,
                    None => return,
                }
            }
        }
    }
}

fn build(functions: u64) -> Arena {
    let mut arena = Arena::default();
    let body = arena.add_operation(None);
    for _ in 0..functions {
        arena.add_operation(Some(body));
    }
    arena
}

fn walk(arena: &Arena, operations_alone: bool) -> u64 {
    let mut count = 0;
    arena.walk(Node::Operation(0, 1), |node| match node {
        Node::Operation(..) => count += 1,
        _ if operations_alone => {}
        _ => count += 1,
    });
    count
}

fn main() {
    let mut arena = Arena::default();
    for line in io::stdin().lock().lines() {
        let line = line.expect("a line");
        let (word, digits) = line.split_once(' ').unwrap_or((&line, "1"));
        let number: u64 = digits.parse().expect("a number");
        let count = match word {
            "build" => {
                arena = build(number);
                number
            }
            "walk" => (0..number).map(|_| walk(&arena, false)).sum(),
            "walk-ops" => (0..number).map(|_| walk(&arena, true)).sum(),
            _ => panic!("no command of the arena"),
        };
        println!("{line}: {count}");
    }
    std::process::exit(0);
}

//! Fills and empties the pairing heap of futures-intrusive, as bench_calls does ours: `heap LOAD COUNT ROUNDS`. bench/rust/build.sh puts
//! the crate's file beside it.

#[allow(dead_code)]
mod intrusive_pairing_heap;

use intrusive_pairing_heap::{HeapNode, PairingHeap};

/// So many values in this order.
fn values(order: &str, count: u64) -> Vec<u64> {
    let mut draw: u64 = 1;
    let value = |i| {
        draw = draw.wrapping_mul(6_364_136_223_846_793_005).wrapping_add(1_442_695_040_888_963_407);
        match order {
            "heap-sorted" => i,
            "heap-reversed" => count - i,
            _ => draw >> 33,
        }
    };
    (0..count).map(value).collect()
}

/// The values as the heap gives them back, each in a box of its own.
fn through_the_heap(list: &[u64]) -> Vec<u64> {
    let mut heap = PairingHeap::new();
    for value in list {
        let node = Box::leak(Box::new(HeapNode::new(*value)));
        // SAFETY: the node stands still until it is removed.
        unsafe { heap.insert(node) };
    }
    let mut out = Vec::with_capacity(list.len());
    while let Some(mut node) = heap.peek_min() {
        // SAFETY: the node is in the heap, and was leaked above.
        unsafe {
            heap.remove(node.as_mut());
            out.push(**Box::from_raw(node.as_ptr()));
        }
    }
    out
}

fn main() {
    let words: Vec<String> = std::env::args().collect();
    let [_, load, count, rounds] = &words[..] else {
        panic!("usage: heap LOAD COUNT ROUNDS");
    };
    let list = values(load, count.parse().expect("a number"));
    let rounds: u64 = rounds.parse().expect("a number");
    println!("{}", (0..rounds).map(|_| through_the_heap(&list).len()).sum::<usize>());
}

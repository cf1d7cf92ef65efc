//! What cannot fit into memory is told, and not tried.

mod common;
use common::*;
use zibrotka::{Error, RowLists, Unplaced};

#[test]
fn a_dense_matrix_of_a_million_states() {
    let chain = shipped("chain.gls");
    let n = chain.count_states().unwrap() as u128;
    assert_eq!(n, 1_046_529);
    let bytes = 8 * n * n + 4 * 63 * n;
    assert_eq!(chain.hamiltonian(1.0, None), Err(Error::TooLarge { bytes }));
    let words = format!("the lists would take {bytes} bytes, which is more than this machine's memory holds");
    assert_eq!(Error::TooLarge { bytes }.to_string(), words);
    assert_eq!(Unplaced::from(Error::TooLarge { bytes }).to_string(), words);
    assert_eq!(Unplaced::from(Error::TooLarge { bytes }).refusal(), None);
    assert_eq!(Error::TooLarge { bytes }.refusal(), None);
}

#[test]
fn a_dense_matrix_of_a_million_masks() {
    let n = 1u128 << 20;
    assert_eq!(fan(20).su2_hamiltonian(1.0, None), Err(Error::TooLarge { bytes: 8 * n * n + 8 * n }));
    assert_eq!(fan(20).su2_states().unwrap().len() as u128, n);
}

#[test]
fn a_product_of_a_million_rows() {
    let n = 1 << 20;
    let mut starts = vec![0; n + 1];
    starts[n] = 1;
    let lists = RowLists { starts, columns: vec![5], values: vec![3.0] };
    let product = lists.matvec(&vec![2.0; n]).unwrap();
    assert_eq!((product.len(), product[n - 1], product.iter().sum()), (n, 6.0, 6.0));
}

//! Calls on a pool of Rayon's, against one thread.

#![cfg(feature = "rayon")]

use liktrob::{Dft, Error, Goldilocks, Pool, Rayon, RowMajorMatrix};

#[test]
fn calls_are_made_on_the_pool_in_whose_install_they_are() {
    let mat = RowMajorMatrix::<Goldilocks>::new((0..1 << 17).collect(), 2);
    let expected = Dft::default().coset_lde_batch(mat.clone(), 1, 7);
    let on_rayon = Dft::default().on(&Rayon);
    for threads in [1, 3] {
        let pool = rayon::ThreadPoolBuilder::new().num_threads(threads).build().unwrap();
        assert_eq!(pool.install(|| Rayon.threads()), threads);
        assert!(pool.install(|| on_rayon.coset_lde_batch(mat.clone(), 1, 7)) == expected);
    }
    // Outside of any pool's install it is the global one.
    assert!(on_rayon.coset_lde_batch(mat, 1, 7) == expected);
    let mut words = vec![u64::MAX; 1 << 17];
    assert_eq!(on_rayon.coset_dft_in_place::<Goldilocks>(&mut words, 1, 7), Err(Error::Number));
    assert!(words.iter().all(|word| *word == u64::MAX));
}

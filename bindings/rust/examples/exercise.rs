//! The course's exercise: one triangle with L = 1 and g² = 1, from the sheet to its states, its Hamiltonian, a product and a Wilson loop.

use zibrotka::{Error, Sheet};

fn main() -> Result<(), Error> {
    let sheet = Sheet::from_edges(3, &[[0, 1], [0, 2], [1, 2]], &[[0, 1, 2]], 1)?;
    for (place, state) in sheet.states()?.iter().enumerate() {
        println!("state {place}: {}", words(state));
    }

    let g_squared = 1.0; // without weights each triangle has weight 1
    for (number, row) in sheet.hamiltonian(g_squared, None)?.rows().enumerate() {
        println!("row {number}: {}", words(row));
    }

    let vector = [1.0, 2.0, 3.0];
    println!("product: {}", words(&sheet.matvec(g_squared, &vector, None)?));

    for path in sheet.loops() {
        let steps: Vec<String> = path.iter().map(|step| format!("({},{})", step.edge, step.direction)).collect();
        println!("loop: {}", steps.join(" "));
        println!("expectation: {}", sheet.wilson(&path, &vector)?);
    }
    Ok(())
}

fn words<T: ToString>(numbers: &[T]) -> String {
    numbers.iter().map(T::to_string).collect::<Vec<_>>().join(" ")
}

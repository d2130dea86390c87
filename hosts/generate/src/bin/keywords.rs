//! Prints the kind of the first keyword, and then the keywords in the order of their kinds, as the proofs believe them.

fn main() {
    let keywords = generate::believed::keywords();
    println!("{}", keywords[0].0);
    for (_, spelling) in keywords {
        println!("{spelling}");
    }
}

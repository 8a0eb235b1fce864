//! The program: diff/run links it with the archive that is compared.

fn main() -> std::process::ExitCode {
    compare::main()
}

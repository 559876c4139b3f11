//! The runner, linked with the archive that is compared. It is separate from the runner, so that another archive needs only a link.

fn main() -> std::process::ExitCode {
    runner::main()
}

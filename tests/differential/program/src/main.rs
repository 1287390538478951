// The driver, linked with the desk's archives. A package of its own, so that the driver is compiled while the archives are
// still being built.
fn main() {
    driver::main();
}

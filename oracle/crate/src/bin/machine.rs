fn main() {
    oracle::machine();
}

fn main() {
    oracle::leaves();
}

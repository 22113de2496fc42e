fn main() {
    oracle::outside();
}

package k;

class Cart {
}

package k;

class Desk {
}

package shop;

class Desk {
    int tax(int rate) {
        switch (rate) {
            case 1: return 7;
        }
        return 0;
    }
}

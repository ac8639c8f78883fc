package shop;

public class Desk {
    protected int count;
}

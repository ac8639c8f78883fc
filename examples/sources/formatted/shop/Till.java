package shop;

import java.util.List;
import shop.goods.Item;

public class Till {
    private int total = 0;

    private List items;

    /* Adds an item, and
	   counts it twice on Sundays. */
    public void add(Item item, boolean sunday) {
        if (sunday) {
            total += 2 * item.price();
        } else {
            total += item.price();
        }
        // now it is there
        items.add(item);
    }
}

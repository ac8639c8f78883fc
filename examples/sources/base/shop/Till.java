package shop;
import shop.goods.Item; import java.util.List; import java.util.Date;

public class Till
{
	private int total=0; private List items;

	/* Adds an item, and
	   counts it twice on Sundays. */
	public void add(Item item, boolean sunday) {
		if (sunday) this.total += 2*(item.price()); else {
		total += (item.price());
		}
		// now it is there
		items.add(item);
	}
}

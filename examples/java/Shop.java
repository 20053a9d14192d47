import java.util.ArrayList;
import java.util.List;

/** A shop with its orders, in the Java that people write. */
public class Shop {
    private final String name;
    private final List<Order> orders = new ArrayList<>();

    public Shop(String name) {
        this.name = name;
    }

    public void add(Order order) {
        if (order == null) {
            throw new IllegalArgumentException("no order");
        }
        orders.add(order);
    }

    public int total() {
        int sum = 0;
        for (Order order : orders) {
            sum += order.price * order.count;
        }
        return sum;
    }

    @Override
    public String toString() {
        return name + ": " + orders.size() + (orders.size() == 1 ? " order" : " orders") + ", " + total();
    }

    public static void main(String[] args) {
        Shop shop = new Shop("corner");
        shop.add(new Order("tea", 3, 2));
        shop.add(new Order("cake", 4, 1));
        System.out.println(shop);
    }
}

class Order {
    final String what;
    final int price;
    final int count;

    Order(String what, int price, int count) {
        this.what = what;
        this.price = price;
        this.count = count;
    }
}

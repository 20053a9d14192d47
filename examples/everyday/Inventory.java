import java.util.ArrayList;
import java.util.Comparator;
import java.util.HashMap;
import java.util.List;
import java.util.Map;

/** Goods in a shop: a sorted list by several orders, a map by name, lambdas and method references. */
public class Inventory {
    enum Kind {
        TOOL, FOOD, BOOK;

        String plural() {
            return name().toLowerCase() + "s";
        }
    }

    static final class Item {
        private final String name;
        private final Kind kind;
        private int price;
        private int count;

        Item(String name, Kind kind, int price, int count) {
            this.name = name;
            this.kind = kind;
            this.price = price;
            this.count = count;
        }

        String getName() {
            return name;
        }

        int getPrice() {
            return price;
        }

        int value() {
            return price * count;
        }

        @Override
        public String toString() {
            return name + " (" + kind + ") " + count + " x " + price;
        }
    }

    private final List<Item> items = new ArrayList<>();
    private final Map<String, Item> byName = new HashMap<>();

    void add(String name, Kind kind, int price, int count) {
        Item item = byName.get(name);
        if (item != null) {
            item.count += count;
            item.price = Math.max(item.price, price);
            return;
        }
        item = new Item(name, kind, price, count);
        items.add(item);
        byName.put(name, item);
    }

    void list(String title, Comparator<Item> order) {
        System.out.println(title);
        List<Item> sorted = new ArrayList<>(items);
        sorted.sort(order);
        for (Item item : sorted) {
            System.out.println("  " + item);
        }
    }

    boolean take(String name, int count) {
        Item item = byName.get(name);
        if (item == null || item.count < count) {
            return false;
        }
        if ((item.count -= count) == 0) {
            items.remove(item);
            byName.remove(name);
        }
        return true;
    }

    public static void main(String[] args) {
        Inventory shop = new Inventory();
        shop.add("hammer", Kind.TOOL, 1500, 4);
        shop.add("apple", Kind.FOOD, 40, 100);
        shop.add("atlas", Kind.BOOK, 3000, 1);
        shop.add("bread", Kind.FOOD, 250, 12);
        shop.add("apple", Kind.FOOD, 45, 20);
        shop.list("by price", (a, b) -> a.price - b.price);
        shop.list("by name", Comparator.comparing(Item::getName));
        shop.list("by value, falling", Comparator.comparingInt(Item::value).reversed());
        System.out.println(shop.take("atlas", 1) + " " + shop.take("atlas", 1) + " " + shop.take("bread", 5));
        int[] values = new int[Kind.values().length];
        for (Item item : shop.items) {
            values[item.kind.ordinal()] += item.value();
        }
        for (Kind kind : Kind.values()) {
            System.out.println(kind.plural() + ": " + values[kind.ordinal()]);
        }
        shop.items.removeIf(item -> item.price > 1000);
        System.out.println(shop.items + " " + Kind.valueOf("BOOK").compareTo(Kind.TOOL));
    }
}

import java.util.ArrayList;
import java.util.HashMap;
import java.util.List;
import java.util.Map;

/** Customers, orders and lines: totals, discounts by subclasses, reports. */
public class Orders {
    interface Discount {
        int apply(int cents);
    }

    static class None implements Discount {
        public int apply(int cents) {
            return cents;
        }
    }

    static class Percent implements Discount {
        private final int percent;

        Percent(int percent) {
            this.percent = percent;
        }

        public int apply(int cents) {
            return cents - cents * percent / 100;
        }
    }

    static class Line {
        final String product;
        final int count, price;

        Line(String product, int count, int price) {
            this.product = product;
            this.count = count;
            this.price = price;
        }

        int total() {
            return count * price;
        }
    }

    static class Customer {
        final String name;
        Discount discount = new None();
        final List<Order> orders = new ArrayList<>();

        Customer(String name) {
            this.name = name;
        }

        Order order() {
            Order made = new Order(this);
            orders.add(made);
            return made;
        }
    }

    static class Order {
        private static int last = 0;
        final int number;
        final Customer customer;
        private final List<Line> lines = new ArrayList<>();

        Order(Customer customer) {
            this.customer = customer;
            number = ++last;
        }

        Order add(String product, int count, int price) {
            lines.add(new Line(product, count, price));
            return this;
        }

        int total() {
            int sum = 0;
            for (Line line : lines) {
                sum += line.total();
            }
            return customer.discount.apply(sum);
        }
    }

    static String money(int cents) {
        String rest = "" + cents % 100;
        return cents / 100 + "." + (rest.length() < 2 ? "0" + rest : rest);
    }

    static Map<String, Integer> sold(List<Customer> customers) {
        Map<String, Integer> counts = new HashMap<>();
        for (Customer customer : customers) {
            for (Order order : customer.orders) {
                for (Line line : order.lines) {
                    Integer before = counts.get(line.product);
                    counts.put(line.product, before == null ? line.count : before + line.count);
                }
            }
        }
        return counts;
    }

    public static void main(String[] args) {
        Customer ann = new Customer("Ann"), bob = new Customer("Bob");
        bob.discount = new Percent(15);
        ann.order().add("pen", 3, 120).add("ink", 1, 805);
        bob.order().add("pen", 10, 110);
        bob.order().add("paper", 2, 499).add("pen", 1, 120);
        List<Customer> all = new ArrayList<>();
        all.add(ann);
        all.add(bob);
        for (Customer customer : all) {
            int sum = 0;
            for (Order order : customer.orders) {
                System.out.println(order.number + " " + customer.name + " " + money(order.total()));
                sum += order.total();
            }
            System.out.println("sum of " + customer.name + ": " + money(sum));
        }
        Map<String, Integer> sold = sold(all);
        for (String product : sold.keySet()) {
            System.out.println(product + " " + sold.get(product));
        }
        if (args.length > 0) {
            ann.discount = null;
            System.out.println(ann.orders.get(0).total());
        }
    }
}

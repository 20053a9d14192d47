import java.util.EnumMap;
import java.util.LinkedHashMap;
import java.util.Map;

public class VendingMachine {
    enum Coin {
        QUARTER(25), DIME(10), NICKEL(5);

        final int cents;

        Coin(int cents) {
            this.cents = cents;
        }
    }

    enum State { IDLE, HAS_MONEY, SOLD_OUT }

    static class OutOfStockException extends Exception {
        OutOfStockException(String product) {
            super(product + " is sold out");
        }
    }

    static class NotEnoughMoneyException extends Exception {
        private final int missing;

        NotEnoughMoneyException(int missing) {
            super("Missing " + missing + " cents");
            this.missing = missing;
        }

        int getMissing() {
            return missing;
        }
    }

    private static class Product {
        final String name;
        final int price;
        int stock;

        Product(String name, int price, int stock) {
            this.name = name;
            this.price = price;
            this.stock = stock;
        }
    }

    private final Map<String, Product> products = new LinkedHashMap<>();
    private final Map<Coin, Integer> coins = new EnumMap<>(Coin.class);
    private int credit;
    private State state = State.IDLE;

    void stock(String code, String name, int price, int count) {
        products.put(code, new Product(name, price, count));
    }

    void insert(Coin coin) {
        credit += coin.cents;
        coins.put(coin, coins.getOrDefault(coin, 0) + 1);
        state = State.HAS_MONEY;
    }

    String buy(String code) throws OutOfStockException, NotEnoughMoneyException {
        Product product = products.get(code);
        if (product == null) {
            throw new IllegalArgumentException("No such product: " + code);
        }
        if (product.stock == 0) {
            throw new OutOfStockException(product.name);
        }
        if (credit < product.price) {
            throw new NotEnoughMoneyException(product.price - credit);
        }
        credit -= product.price;
        product.stock--;
        if (products.values().stream().allMatch(p -> p.stock == 0)) {
            state = State.SOLD_OUT;
        }
        return product.name;
    }

    Map<Coin, Integer> change() {
        Map<Coin, Integer> result = new EnumMap<>(Coin.class);
        for (Coin coin : Coin.values()) {
            while (credit >= coin.cents && coins.getOrDefault(coin, 0) > 0) {
                credit -= coin.cents;
                coins.put(coin, coins.get(coin) - 1);
                result.put(coin, result.getOrDefault(coin, 0) + 1);
            }
        }
        if (state != State.SOLD_OUT) {
            state = State.IDLE;
        }
        return result;
    }

    public static void main(String[] args) {
        VendingMachine machine = new VendingMachine();
        machine.stock("A1", "Chips", 50, 1);
        machine.stock("B2", "Candy", 35, 2);
        String[] orders = {"A1", "B2", "A1", "C3", "B2", "B2"};
        for (String order : orders) {
            machine.insert(Coin.QUARTER);
            machine.insert(Coin.QUARTER);
            try {
                System.out.println("Bought " + machine.buy(order) + ", change " + machine.change());
            } catch (OutOfStockException e) {
                System.out.println(e.getMessage() + ", refund " + machine.change());
            } catch (NotEnoughMoneyException e) {
                System.out.println("Please add " + e.getMissing());
            } catch (IllegalArgumentException e) {
                System.out.println(e.getMessage());
            } finally {
                System.out.println("State " + machine.state);
            }
        }
    }
}

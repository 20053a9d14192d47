package shop;

public class Product {
    private final String name;
    private final int cents;

    public Product(String name, int cents) {
        this.name = name;
        this.cents = cents;
    }

    public String getName() {
        return name;
    }

    public int getCents() {
        return cents;
    }
}

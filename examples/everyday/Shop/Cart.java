package shop;

import java.util.LinkedHashMap;
import java.util.Map;

public class Cart {
    private final Map<Product, Integer> counts = new LinkedHashMap<>();

    public void add(Product product) {
        add(product, 1);
    }

    public void add(Product product, int n) {
        counts.merge(product, n, Integer::sum);
    }

    public int total() {
        int sum = 0;
        for (Map.Entry<Product, Integer> entry : counts.entrySet()) {
            sum += entry.getKey().getCents() * entry.getValue();
        }
        return sum;
    }

    public void print() {
        counts.forEach((product, n) -> System.out.println(n + " x " + product.getName()));
    }
}

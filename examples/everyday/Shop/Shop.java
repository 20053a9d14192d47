package shop;

public class Shop {
    static final Product[] SOLD = {new Product("tea", 350), new Product("cup", 799)};

    public static void main(String[] args) {
        Cart cart = new Cart();
        cart.add(SOLD[0]);
        cart.add(SOLD[1], 4);
        cart.add(SOLD[0], 1 + args.length);
        cart.print();
        System.out.println(cart.total());
    }
}

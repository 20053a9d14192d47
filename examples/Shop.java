class Shop {
  String name;
  Order[] orders;
  int size;
  void init(String called) {
    name = called;
    orders = new Order[2];
  }
  boolean add(Order order) {
    if (order == null) {
      return false;
    }
    if (size == orders.length) {
      Order[] more = new Order[2 * size];
      for (int i = 0; i < size; i++) {
        more[i] = orders[i];
      }
      orders = more;
    }
    orders[size] = order;
    size++;
    return true;
  }
  int total() {
    int sum = 0;
    for (int i = 0; i < size; i++) {
      sum += orders[i].price * orders[i].count;
    }
    return sum;
  }
  String text() {
    String word = " orders";
    if (size == 1) {
      word = " order";
    }
    return name + ": " + size + word + ", " + total();
  }
  public static void main(String[] args) {
    Shop shop = new Shop();
    shop.init("corner");
    Order tea = new Order();
    tea.init("tea", 3, 2);
    shop.add(tea);
    Order cake = new Order();
    cake.init("cake", 4, 1);
    shop.add(cake);
    System.out.println(shop.text());
  }
}
class Order {
  String what;
  int price;
  int count;
  void init(String called, int each, int number) {
    what = called;
    price = each;
    count = number;
  }
}

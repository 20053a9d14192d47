class Node {
  int key;
  Node left;
  Node right;
  boolean has(int k) {
    if (k == key) return true;
    if (k < key) { if (left == null) return false; return left.has(k); }
    if (right == null) return false;
    return right.has(k);
  }
  void add(int k) {
    if (k == key) return;
    if (k < key) {
      if (left == null) { left = new Node(); left.key = k; } else { left.add(k); }
    } else {
      if (right == null) { right = new Node(); right.key = k; } else { right.add(k); }
    }
  }
}
class Main {
  public static void main(String[] args) {
    Node root = new Node();
    root.key = 40000;
    int x = 12345;
    int i = 0;
    while (i < 80000) { x = (x * 1103515245 + 12345) & 1048575; root.add(x); i = i + 1; }
    int found = 0; x = 12345;
    i = 0;
    while (i < 80000) { x = (x * 1103515245 + 12345) & 1048575; if (root.has(x)) { found = found + 1; } i = i + 1; }
    System.out.println(found);
  }
}

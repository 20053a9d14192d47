public class Words {
  public static void main(String[] args) {
    String all = "";
    for (int i = 0; i < args.length; i++) {
      if (i > 0) {
        all += ", ";
      }
      all += args[i];
    }
    System.out.println(all + " has " + all.length() + " units");
  }
}

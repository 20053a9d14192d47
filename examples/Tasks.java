class Tasks {
  public static void main(String[] args) {
    Job call = new Job();
    call.title = "call Ann";
    call.owner = "Ann";
    System.out.println(call.title + call.remind());
    Job pump = new Job();
    pump.title = "pump";
    pump.period = 3;
    pump.tick();
    System.out.println(pump.title + " " + pump.percent());
  }
}
class Job {
  String title;
  String owner;
  boolean done;
  int period;
  int left;
  String remind() {
    if (done) {
      return " is done";
    }
    return ", " + owner;
  }
  void tick() { left = left + 1; }
  int percent() { return 100 * left / period; }
}

// A house whose lamps, heaters and meters are all made of one class. Each device serves one
// purpose, but the class holds the fields and methods of all.
class House {
  static String line;

  static void add(String text) {
    if (line.length() > 0) {
      line = line + ", ";
    }
    line = line + text;
  }

  static void show() {
    System.out.println(line);
    line = "";
  }

  public static void main(String[] args) {
    line = "";
    Room room = new Room();
    room.furnish("kitchen", 18);
    for (int hour = 0; hour < 4; hour++) {
      room.pass(hour);
    }
    if (args.length > 0) {
      room.leave();
    }
    System.out.println(room.bill());
  }
}

class Room {
  String name;
  Device lamp;
  Device heater;
  Device meter;

  void furnish(String name, int warmth) {
    this.name = name;
    lamp = new Device();
    lamp.mark("lamp of the " + name);
    lamp.dim(60);
    heater = new Device();
    heater.mark("heater of the " + name);
    heater.warm(warmth);
    meter = new Device();
    meter.mark("meter of the " + name);
    meter.open(10);
  }

  void pass(int hour) {
    if (hour % 2 == 0) {
      lamp.turn();
    }
    heater.feel(17 - hour);
    meter.read(lamp.light() + heater.heat());
    House.add(hour + "h");
    lamp.tell();
    heater.tell();
    meter.tell();
    House.show();
  }

  void leave() {
    lamp.off();
    heater.warm(5);
    heater.feel(10);
    House.add("left");
    lamp.tell();
    heater.tell();
    House.show();
  }

  String bill() {
    return name + ": " + meter.sum() + " units in " + meter.count + " hours";
  }
}

class Device {
  // of all
  String label;
  String state;
  // of lamps
  boolean on;
  int level;
  // of heaters
  int wanted;
  int power;
  // of meters
  int[] readings;
  int count;

  void mark(String text) {
    label = text;
    state = "new";
  }

  void tell() {
    House.add(label + " " + state);
  }

  void dim(int level) {
    this.level = level;
  }

  void turn() {
    on = !on;
    state = "off";
    if (on) {
      state = "at " + level;
    }
  }

  void off() {
    on = true;
    turn();
  }

  int light() {
    if (on) {
      return level / 10;
    }
    return 0;
  }

  void warm(int degrees) {
    wanted = degrees;
  }

  void feel(int degrees) {
    power = 0;
    if (degrees < wanted) {
      power = 100 * (wanted - degrees);
    }
    state = "at " + power;
  }

  int heat() {
    return power / 50;
  }

  void open(int most) {
    readings = new int[most];
    count = 0;
  }

  void read(int units) {
    readings[count] = units;
    count = count + 1;
    state = "at " + sum();
  }

  int sum() {
    int sum = 0;
    for (int i = 0; i < count; i++) {
      sum += readings[i];
    }
    return sum;
  }
}

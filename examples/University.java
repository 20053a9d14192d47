public class University {
  public static void main(String[] args) {
    Student s1 = new Student();
    Student s2 = new Student();
    Professor p1 = new Professor();
    s1.name = "Carl";
    s1.address = "Main Street";
    s2.name = "Susanna";
    p1.name = "Gregor";
    p1.office = "Room 7";
    s1.setAdvisor(p1);
    p1.hire(s1);
    Person q = s1;
    System.out.println(q.name + " " + q.where());
    q = p1;
    System.out.println(q.name + " " + q.where());
    System.out.println(s1.advisor.name);
    System.out.println(s2.name);
  }
}
class Person {
  String name;
  String address;
  String where() { return this.address; }
}
class Student extends Person {
  Professor advisor;
  void setAdvisor(Professor p) { this.advisor = p; }
}
class Professor extends Person {
  String office;
  Student assistant;
  String where() { return this.office; }
  void hire(Student s) { this.assistant = s; }
}

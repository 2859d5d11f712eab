// The library of flow_texts.cs.
public class InLibrary { public void Kept() { } protected void Gone() { } }
public class Qualified { public void Kept() { } }
public class Unnamed { public void Gone() { } }

// examples/ledger.exe is this program as mcs compiles it: mcs -optimize+ -out:ledger.exe ledger.cs
// It reads lines as "name amount", and prints what each account holds.
using System;

interface IAccount
{
    string Name { get; }
    int Balance { get; }
    void Add(int amount);
}

class LimitException : Exception
{
    public LimitException(string message) : base(message) { }
}

abstract class Account : IAccount
{
    readonly string name;
    protected int balance;

    protected Account(string name) { this.name = name; }

    public string Name { get { return name; } }
    public int Balance { get { return balance; } }

    public void Add(int amount)
    {
        Check(amount);
        balance = checked(balance + amount);
    }

    protected abstract void Check(int amount);

    public override string ToString() { return string.Concat(name, ": ", balance.ToString()); }
}

class Savings : Account
{
    public Savings(string name) : base(name) { }

    protected override void Check(int amount)
    {
        if (balance + amount < 0) throw new LimitException(string.Concat(Name, " has not enough"));
    }
}

class Credit : Account
{
    static readonly int Limit;
    static Credit() { Limit = -1000; }

    public Credit(string name) : base(name) { }

    protected override void Check(int amount)
    {
        if (balance + amount < Limit) throw new LimitException(string.Concat(Name, " is at its limit"));
    }
}

struct Pair<K, V>
{
    public K Key;
    public V Value;
    public Pair(K key, V value) { Key = key; Value = value; }
}

class Table<K, V> where K : class where V : class
{
    Pair<K, V>[] items = new Pair<K, V>[2];
    int count;

    public int Count { get { return count; } }

    public V this[K key]
    {
        get
        {
            for (int i = 0; i < count; i++)
                if (items[i].Key.Equals(key)) return items[i].Value;
            return null;
        }
    }

    public void Put(K key, V value)
    {
        if (count == items.Length)
        {
            Pair<K, V>[] more = new Pair<K, V>[count * 2];
            for (int i = 0; i < count; i++) more[i] = items[i];
            items = more;
        }
        items[count++] = new Pair<K, V>(key, value);
    }

    public V At(int i) { return items[i].Value; }
}

static class Program
{
    static IAccount Open(string name)
    {
        if (name.Substring(0, 1) == "c") return new Credit(name);
        return new Savings(name);
    }

    static void Read(Table<string, IAccount> accounts, string line)
    {
        int space = line.IndexOf(' ');
        if (space < 0) throw new FormatException("no amount");
        string name = line.Substring(0, space);
        int amount = int.Parse(line.Substring(space + 1));
        IAccount account = accounts[name];
        if (account == null)
        {
            account = Open(name);
            accounts.Put(name, account);
        }
        account.Add(amount);
    }

    static int Main()
    {
        Table<string, IAccount> accounts = new Table<string, IAccount>();
        int lines = 0, bad = 0;
        string line;
        while ((line = Console.ReadLine()) != null)
        {
            try
            {
                Read(accounts, line);
            }
            catch (LimitException e)
            {
                bad++;
                Console.WriteLine(e.Message);
            }
            catch (FormatException e)
            {
                bad++;
                Console.Write("line ");
                Console.Write(lines + 1);
                Console.Write(": ");
                Console.WriteLine(e is FormatException);
            }
            finally
            {
                lines++;
            }
        }
        long sum = 0;
        for (int i = 0; i < accounts.Count; i++)
        {
            object account = accounts.At(i);
            Console.WriteLine(account);
            sum += accounts.At(i).Balance;
        }
        Console.WriteLine(sum);
        return bad;
    }
}

using Microsoft.SPOT;

class Program
{
    static int Mean(int[] values)
    {
        int sum = 0;
        foreach (int value in values) sum += value;
        return sum / values.Length;
    }

    static int Main()
    {
        Debug.Print("mean " + Mean(new int[] { 3, 5, 8, 9 }));
        return 0;
    }
}

// The base library as a C# compiler sees it: the public types and members of `mscorlib`, without their code. Programs are
// compiled against it and run with the real one. What a compiler asks for beyond that stands in `compiler.cs`.
using System.Collections;
using System.Reflection;
using System.Runtime.CompilerServices;

[assembly: AssemblyVersion("4.3.1.0")]

namespace System
{
    public class Object
    {
        public Object() { }
        public virtual string ToString() { return null; }
        public virtual bool Equals(object obj) { return false; }
        public static bool ReferenceEquals(object a, object b) { return false; }
    }

    public abstract class ValueType { public ValueType() { } }

    public abstract class Enum : ValueType
    {
        public Enum() { }
        public override bool Equals(object obj) { return false; }
        public override string ToString() { return null; }
    }

    public abstract class Array
    {
        public Array() { }
        public int Length { get { return 0; } }
        public static void Copy(Array source, int sourceIndex, Array target, int targetIndex, int length) { }
    }

    [AttributeUsage(AttributeTargets.All)]
    public class Attribute { public Attribute() { } }

    public struct Void { }

    public struct RuntimeFieldHandle { }

    public interface IDisposable
    {
        void Dispose();
    }

    public class Math
    {
        public Math() { }
        public static int Abs(int value) { return 0; }
        public static int Max(int a, int b) { return 0; }
        public static int Min(int a, int b) { return 0; }
    }

    // In the base library these override the methods of Object. Said so here, a compiler would call Object's by the prefix
    // `constrained.`, which isn't accepted; so it calls the type's own.
    public struct Boolean
    {
        public new string ToString() { return null; }
        public new bool Equals(object obj) { return false; }
    }

    public struct Char
    {
        public new string ToString() { return null; }
        public new bool Equals(object obj) { return false; }
    }

    public struct SByte
    {
        public new string ToString() { return null; }
        public new bool Equals(object obj) { return false; }
    }

    public struct Byte
    {
        public new string ToString() { return null; }
        public new bool Equals(object obj) { return false; }
    }

    public struct Int16
    {
        public new string ToString() { return null; }
        public new bool Equals(object obj) { return false; }
    }

    public struct UInt16
    {
        public new string ToString() { return null; }
        public new bool Equals(object obj) { return false; }
    }

    public struct Int32
    {
        public new string ToString() { return null; }
        public new bool Equals(object obj) { return false; }
    }

    public struct UInt32
    {
        public new string ToString() { return null; }
        public new bool Equals(object obj) { return false; }
    }

    public struct Int64
    {
        public new string ToString() { return null; }
        public new bool Equals(object obj) { return false; }
    }

    public struct UInt64
    {
        public new string ToString() { return null; }
        public new bool Equals(object obj) { return false; }
    }

    public class Number
    {
        public Number() { }
        public static string Signed(long value) { return null; }
        public static string Unsigned(ulong value) { return null; }
    }

    public sealed class String
    {
        public static readonly string Empty;
        public String() { }
        public int Length { get { return 0; } }
        [IndexerName("Chars")]
        public char this[int index] { get { return '\0'; } }
        public static string Concat(string a, string b) { return null; }
        public string Substring(int start, int length) { return null; }
        public static bool Equals(string a, string b) { return false; }
        public static int Compare(string a, string b) { return 0; }
        public static string FromChars(char[] chars, int start, int length) { return null; }
        public static string FromChar(char c) { return null; }
        public static string Concat(string a, string b, string c) { return null; }
        public static string Concat(string a, string b, string c, string d) { return null; }
        public static string Concat(params string[] values) { return null; }
        public static string Concat(object a) { return null; }
        public static string Concat(object a, object b) { return null; }
        public static string Concat(object a, object b, object c) { return null; }
        public static string Concat(params object[] values) { return null; }
        public string Substring(int start) { return null; }
        public override bool Equals(object obj) { return false; }
        public static bool operator ==(string a, string b) { return false; }
        public static bool operator !=(string a, string b) { return false; }
        public int IndexOf(char c) { return 0; }
        public override string ToString() { return null; }
    }

    public class Exception
    {
        public Exception() { }
        public Exception(string message) { }
        public Exception(string message, Exception inner) { }
        public virtual string Message { get { return null; } }
        public Exception InnerException { get { return null; } }
        public override string ToString() { return null; }
    }

    public class SystemException : Exception
    {
        public SystemException() { }
        public SystemException(string message) { }
    }

    public class ArithmeticException : SystemException
    {
        public ArithmeticException() { }
        public ArithmeticException(string message) { }
    }

    public class DivideByZeroException : ArithmeticException
    {
        public DivideByZeroException() { }
        public DivideByZeroException(string message) { }
    }

    public class OverflowException : ArithmeticException
    {
        public OverflowException() { }
        public OverflowException(string message) { }
    }

    public class IndexOutOfRangeException : SystemException
    {
        public IndexOutOfRangeException() { }
        public IndexOutOfRangeException(string message) { }
    }

    public class InvalidCastException : SystemException
    {
        public InvalidCastException() { }
        public InvalidCastException(string message) { }
    }

    public class NullReferenceException : SystemException
    {
        public NullReferenceException() { }
        public NullReferenceException(string message) { }
    }

    public class ArrayTypeMismatchException : SystemException
    {
        public ArrayTypeMismatchException() { }
        public ArrayTypeMismatchException(string message) { }
    }

    public class ArgumentException : SystemException
    {
        public ArgumentException() { }
        public ArgumentException(string message) { }
    }

    public class ArgumentNullException : ArgumentException
    {
        public ArgumentNullException() { }
        public ArgumentNullException(string message) { }
    }

    public class ArgumentOutOfRangeException : ArgumentException
    {
        public ArgumentOutOfRangeException() { }
        public ArgumentOutOfRangeException(string message) { }
    }

    public class InvalidOperationException : SystemException
    {
        public InvalidOperationException() { }
        public InvalidOperationException(string message) { }
    }

    public class NotSupportedException : SystemException
    {
        public NotSupportedException() { }
        public NotSupportedException(string message) { }
    }
}

namespace System.Runtime.CompilerServices
{
    public class RuntimeHelpers
    {
        public RuntimeHelpers() { }
        public static void InitializeArray(Array array, RuntimeFieldHandle data) { }
    }
}

namespace System.Collections
{
    public interface IEnumerator
    {
        bool MoveNext();
        object Current { get; }
        void Reset();
    }

    public interface IEnumerable
    {
        IEnumerator GetEnumerator();
    }

    public class ArrayList : IEnumerable
    {
        public ArrayList() { }
        public int Add(object value) { return 0; }
        public int Count { get { return 0; } }
        public object this[int index] { get { return null; } set { } }
        public void RemoveAt(int index) { }
        public bool Contains(object value) { return false; }
        public void Clear() { }
        public virtual IEnumerator GetEnumerator() { return null; }
    }

    class ArrayListEnumerator : IEnumerator
    {
        public ArrayListEnumerator() { }
        public virtual bool MoveNext() { return false; }
        public virtual object Current { get { return null; } }
        public virtual void Reset() { }
    }
}

namespace System.Text
{
    public class StringBuilder
    {
        public StringBuilder() { }
        public StringBuilder Append(string value) { return null; }
        public StringBuilder Append(char value) { return null; }
        public StringBuilder Append(object value) { return null; }
        public int Length { get { return 0; } }
        public override string ToString() { return null; }
    }
}
